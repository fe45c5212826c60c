# shellcheck shell=bash disable=SC2154
# Where the built programs are, for the other tools; $top is the repository, or what an installed package has in its place.
# PROGRAMS may name a folder that has them.

# program NAME: prints the path of a program, built or not.
program() {
    if [ -n "${PROGRAMS:-}" ]; then
        echo "$PROGRAMS/$1"
    elif [ -d "$top/crates" ]; then
        echo "$top/crates/$1/out/$1"
    else
        (cd "$top/../../bin" && echo "$PWD/$1")
    fi
}

# ready NAME: prints the path of a program that can be run: PROGRAMS's or the proved one, an installed one, or the unproved one
# that tools/nethrywel keeps. It builds none.
ready() {
    local found kept
    found=$(program "$1")
    if [ ! -x "$found" ] && [ -z "${PROGRAMS:-}" ]; then
        found=$(type -P "$1")
        [ "$(readlink -f "$found")" != "$(readlink -f "$top/tools/$1")" ] || found=
        if [ -z "$found" ] && [ -d "$top/crates" ] && kept=$(unproved)/$1 && is_kept "$kept"; then
            found=$kept
            echo "${0##*/}: $1 is unproved; tools/install proves it and installs it" >&2
        fi
    fi
    if [ ! -x "$found" ]; then
        echo "${0##*/}: $1 isn't built: tools/install proves it and installs it," \
            "tools/nethrywel builds it without a proof and keeps it" >&2
        return 1
    fi
    note_other_sources "$1"
    echo "$found"
}

# sources_version: prints the last version in CHANGELOG.md, with the commit (1.0+gSHA) if the repository has one, and `.changed` if
# a file differs from it.
sources_version() {
    local version commit
    version=$(sed -n '/^## \([0-9][0-9.]*\).*/{s//\1/p;q}' "$top/CHANGELOG.md")
    if [ -e "$top/.git" ] && commit=$(git -C "$top" rev-parse --short=12 HEAD 2>/dev/null); then
        version+=+g$commit
        git -C "$top" diff --quiet HEAD -- || version+=.changed
    fi
    echo "$version"
}

# What the programs are built from: with proofs, and without them.
with_proofs=(crates.txt "crates/*/src" "crates/*/specs" "crates/*/proofs") without_proofs=(crates.txt "crates/*/src")

# sources_sum NAME PLACE..: prints the sum of the files in places of the repository. It is kept by a name, and isn't taken again
# if no file's name, size or time of change is another.
sources_sum() {
    local kept=$top/out/sums/$1 was='' now sum
    shift
    # shellcheck disable=SC2068
    now=$(cd "$top" && find -L $@ -type f -printf '%p %s %C@\n')
    [ ! -e "$kept" ] || was=$(<"$kept")
    sum=${was%%$'\n'*}
    if [ "${was#*$'\n'}" != "$now" ]; then
        # shellcheck disable=SC2068
        sum=$(cd "$top" && find -L $@ -type f -print0 | LC_ALL=C sort -z | xargs -0 sha256sum | sha256sum | cut -d ' ' -f 1)
        { mkdir -p "${kept%/*}" && echo "$sum"$'\n'"$now" >"$kept.$$" && mv "$kept.$$" "$kept"; } 2>/dev/null
    fi
    echo "$sum"
}

# built_from NAME: prints the sums of the sources without proofs and of a program.
built_from() {
    echo "$(sources_sum code "${without_proofs[@]}") $(sha256sum "$(program "$1")" | cut -d ' ' -f 1)"
}

# sum_line NAME: prints what NAME.sources next to a program has: the sums of the sources and of the program itself.
sum_line() {
    echo "$(sources_sum proofs "${with_proofs[@]}") $(built_from "$1")"
}

# note_other_sources NAME: notes that the proved program isn't known to be built from the sources as they are.
note_other_sources() {
    local at=$top/crates/$1/out/$1 known=
    [ -z "${PROGRAMS:-}" ] && [ -x "$at" ] || return 0
    [ ! -e "$at.sources" ] || known=$(<"$at.sources")
    [ "${known#* }" = "$(built_from "$1")" ] ||
        echo "${0##*/}: note: $at isn't known to be built from these sources; tools/install builds it again" >&2
}

# unfit NAME: prints why a program isn't the proved one of the sources; it fails if it is.
unfit() {
    local at
    at=$(program "$1")
    if [ ! -x "$at" ]; then
        echo "$at isn't there"
    elif ! readelf -p .comment "$at" 2>/dev/null | grep -q 'rattle logic='; then
        echo "$at is unproved"
    elif [ ! -e "$at.sources" ] || [ "$(sum_line "$1")" != "$(<"$at.sources")" ]; then
        echo "$at isn't known to be built from these sources"
    else
        return 1
    fi
}

# by_kit ARGUMENT..: runs nethrywel_tools/kit.py, and ends it if this tool is ended.
by_kit() {
    local status
    PYTHONPATH=$top/tools/lib python3 -B -m nethrywel_tools.kit "$@" &
    # shellcheck disable=SC2064
    trap "kill $!; wait $!; exit 130" INT TERM HUP
    wait $!
    status=$?
    trap - INT TERM HUP
    return $status
}

# record_sources NAME: writes NAME.sources next to a program that has just been built of the sources as they are.
record_sources() {
    sum_line "$1" >"$(program "$1").sources"
}

# adopt NAME: writes NAME.sources for a program of crates/NAME/out if rt has recorded that it is of the sources as they are.
adopt() {
    local at=$top/crates/$1/out/$1
    [ -z "${PROGRAMS:-}" ] && [ -x "$at" ] && command -v rt >/dev/null && unfit "$1" >/dev/null && by_kit "$1" || return 0
    record_sources "$1"
}

# build NAME: proves and builds a program, unless it is the proved one of the sources. NAME.sources is next to it then.
build() {
    local why before said=/dev/null
    needs readelf binutils
    adopt "$1"
    why=$(unfit "$1") || return 0
    if [ -n "${PROGRAMS:-}" ] || [ ! -d "$top/crates" ] || ! command -v rt >/dev/null; then
        echo "${0##*/}: $why, and $1 can't be built without rt, the toolchain's command, on the path, or if PROGRAMS is set" >&2
        return 1
    fi
    echo "${0##*/}: $why; building $1: a first proof of all crates takes long" >&2
    before=$(sources_sum proofs "${with_proofs[@]}")
    # On a terminal the lines of the toolchain are the progress of the proof.
    [ ! -t 2 ] || said=/dev/stderr
    (cd "$top/crates/$1" && rt run </dev/null >"$said") || return 1
    if [ "$(sources_sum proofs "${with_proofs[@]}")" != "$before" ]; then
        echo "${0##*/}: the sources were changed during the build; run it again" >&2
        return 1
    fi
    record_sources "$1"
    ! why=$(unfit "$1") || { echo "${0##*/}: $why" >&2 && return 1; }
}

# unproved: prints the folder of the programs that are built without a proof, by this kit, of the sources as they are. Git ignores
# it.
unproved() {
    local sum kit
    sum=$(sources_sum unproved "${without_proofs[@]}" tools/lib/nethrywel_tools/kit.py)
    kit=$(readlink -f "$(type -P rt)")
    [ ! -e "${kit%/bin/rt}/WHAT" ] || kit=$(sha256sum <"${kit%/bin/rt}/WHAT")
    echo "$top/out/unproved/${sum:0:16}-${kit:0:8}"
}

# is_kept PROGRAM: whether an unproved program is kept, and whole.
is_kept() {
    [ -x "$1" ] && [ -e "$1.size" ] && [ "$(stat -c %s "$1")" = "$(<"$1.size")" ]
}

# build_unproved FOLDER NAME..: builds programs without a proof, side by side, and keeps them in the folder that `unproved` prints.
build_unproved() {
    local to=$1 name missing=()
    for name in "${@:2}"; do
        is_kept "$to/$name" || missing+=("$name")
    done
    [ ${#missing[@]} != 0 ] || return 0
    if ! command -v rt >/dev/null; then
        echo "${missing[*]} can't be built: rt, the toolchain's command, isn't on the path" >&2
        return 1
    fi
    by_kit --keep "$to" "${missing[@]}"
}
