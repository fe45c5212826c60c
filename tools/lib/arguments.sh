# shellcheck shell=bash disable=SC2154
# The command line of a tool. Each tool sets $usage, a line, and $about, what it does; one with options sets $options, their lines.

# refuse WHY: ends with status 2.
refuse() {
    printf '%s: %s\nUsage: %s\n' "${0##*/}" "$1" "$usage" >&2
    exit 2
}

# fail WHY: ends with status 1.
fail() {
    echo "${0##*/}: $1" >&2
    exit 1
}

# takes_no_options ARGUMENT: prints the help if it is asked for; refuses another option.
takes_no_options() {
    case $1 in
    -h | --help)
        printf '%s\n\nUsage: %s\n' "$about" "$usage${options:+$'\n\nOptions:\n'$options}" 2>/dev/null || fail "can't write standard output"
        exit 0
        ;;
    -?*) refuse "unknown option $1" ;;
    esac
}

# one_at_most KIND ARGUMENT..: of a tool that takes a file or a folder, or none.
one_at_most() {
    [ $# = 1 ] || takes_no_options "$2"
    [ $# -le 2 ] || refuse "one $1 at most"
}

# needs COMMAND PACKAGE: ends if the command isn't installed.
needs() {
    command -v "$1" >/dev/null || fail "$2 isn't here; run dev/setup"
}
