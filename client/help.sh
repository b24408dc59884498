# For scripts whose opening comment says how they are used. They read this file before they do anything:
#
#   --help as the first argument    prints that comment on standard output, and ends the script with status 0
#   misused REASON                  says the reason on standard error, and ends the script with status 2
case ${1-} in
-h | --help)
    sed -n -e 1d -e '/^#/!q' -e 's/^# \{0,1\}//p' "$0"
    exit 0
    ;;
esac

misused() {
    echo "${0##*/}: $1; --help says how it is used" >&2
    exit 2
}
