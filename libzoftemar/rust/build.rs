//! Finds the libzoftemar.a that libzoftemar/install installed: in the folder ZOFTEMAR_LIB_DIR, or by pkg-config, in this crate's version.
use std::env;
use std::process::Command;

fn main() {
    for name in ["ZOFTEMAR_LIB_DIR", "PKG_CONFIG", "PKG_CONFIG_PATH", "PKG_CONFIG_LIBDIR"] {
        println!("cargo:rerun-if-env-changed={name}");
    }
    let folder = env::var("ZOFTEMAR_LIB_DIR").unwrap_or_else(|_| folder_by_pkg_config());
    println!("cargo:rustc-link-search=native={folder}");
    println!("cargo:rustc-link-lib=static=zoftemar");
}

fn folder_by_pkg_config() -> String {
    let program = env::var("PKG_CONFIG").unwrap_or_else(|_| "pkg-config".to_string());
    let answer = |question: &str| Command::new(&program).args([question, "zoftemar"]).output().ok().filter(|output| output.status.success());
    match answer(concat!("--exact-version=", env!("CARGO_PKG_VERSION"))).and_then(|_| answer("--variable=libdir")) {
        Some(output) => String::from_utf8_lossy(&output.stdout).trim().to_string(),
        None => panic!("no libzoftemar {}: set ZOFTEMAR_LIB_DIR to the folder of libzoftemar.a, or PKG_CONFIG_PATH", env!("CARGO_PKG_VERSION")),
    }
}
