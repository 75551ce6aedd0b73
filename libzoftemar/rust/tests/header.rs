//! Compares the crate's codes and versions with those of zoftemar.h.
use zoftemar::code_name;

const HEADER: &str = include_str!("../../zoftemar.h");

/// Each code that the header lists, with its number.
fn codes() -> Vec<(u32, &'static str)> {
    let after = HEADER.split("enum zoftemar_code {").nth(1).unwrap();
    let list = after.split("};").next().unwrap();
    list.lines()
        .filter_map(|line| line.trim().split_once(" = "))
        .filter(|(name, _)| name.starts_with("ZOFTEMAR_"))
        .map(|(name, rest)| (rest.chars().take_while(char::is_ascii_digit).collect::<String>().parse().unwrap(), name))
        .collect()
}

#[test]
fn each_code_has_its_name() {
    let codes = codes();
    assert_eq!(codes.len(), 60);
    for (code, name) in &codes {
        assert_eq!(code_name(*code), *name);
    }
    for code in (0..200).filter(|code| codes.iter().all(|(known, _)| known != code)) {
        assert_eq!(code_name(code), "ZOFTEMAR_?");
    }
}

#[test]
fn header_archive_and_crate_are_of_one_version() {
    assert!(HEADER.contains(&format!("#define ZOFTEMAR_VERSION \"{}\"", env!("CARGO_PKG_VERSION"))));
    let numbers: Vec<u32> = env!("CARGO_PKG_VERSION").split('.').map(|number| number.parse().unwrap()).collect();
    assert_eq!(zoftemar::version(), 65536 * numbers[0] + 256 * numbers[1] + numbers[2]);
}
