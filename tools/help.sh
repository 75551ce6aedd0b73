# help.sh: read by each bash script of the repository as its first command. Where the script's first word is --help or -h, it prints the comment at
# the script's head and ends the script.
case ${1:-} in
  -h | --help)
    sed -n '2,${/^#/!q; s/^# \{0,1\}//p}' "$0"
    exit 0
    ;;
esac
