# Which program answers: the proved one where it stands, else one that was compiled without proof. The door, tools/build
# and tools/record-proved read this file, and have set `top`, the folder of the repository or of what was installed.
# shellcheck shell=sh disable=SC2154

# The version of all that is here; CHANGELOG.md says what it has.
number=0.1.0
program=$top/crates/ntbsim/out/ntbsim
record=$program.proved
cache=${NTBSIM_CACHE:-${XDG_CACHE_HOME:-${HOME:-/nowhere}/.cache}/ntbsim}
case $cache in /*) ;; *) cache=./$cache ;; esac
feed='
'
checksum=sha256sum answering='' more=''
command -v sha256sum >/dev/null 2>&1 || checksum='cksum'

note() { printf 'ntbsim: %s\n' "$1" >&2; }
fail() { note "$1" && exit 9; }
sum() { "$checksum" | cut -d ' ' -f 1; }
shown() { printf '%s' "$1" | LC_ALL=C tr -c ' -~' '?'; }

# visit CRATE: the lines of crates.txt of a crate and of those that it stands on, each behind those below it.
visit() {
    case $seen in *" $1 "*) return ;; *) seen="$seen$1 " ;; esac
    IFS=$feed
    for line in $lines; do case $line in "$1":* | "$1 "*) set -- "$1" "$line" ;; esac; done
    IFS=' '
    [ $# -eq 2 ] || return 0
    for low in ${2#*:}; do visit "$low"; done
    printf '%s\n' "$2"
}

# source_lines PART..: what the program is made of: crates, handles, and checksums of these folders of each crate.
source_lines() (
    cd "$top" || exit
    seen=' ' lines=$(sed '/^[a-z]/!d' crates.txt)
    lines=$(visit ntbsim)
    printf '%s\n' "$lines" && cat HANDLES
    for crate in $(printf '%s\n' "$lines" | sed 's/[: ].*//'); do
        for part; do [ ! -d "crates/$crate/$part" ] || printf '%s\n' "crates/$crate/$part"; done
    done | xargs sh -c 'find "$@" -type f \( -name "*.rt" -o -name "*.antt" \)' sh | LC_ALL=C sort | xargs "$checksum"
)

# What is recorded of a proved program: its checksum, and its sources, which don't stand beside an installed one.
record_lines() {
    printf 'program %s\n' "$(sum <"$program")"
    if [ -f "$top/crates.txt" ]; then source_lines src specs proofs; else sed 1d "$record"; fi
}
is_proved() { [ -x "$program" ] && [ -f "$record" ] && record_lines | cmp -s - "$record"; }

# Why no proved program stands.
why_unproved() {
    if [ ! -f "$program" ]; then echo 'no program is built' && return; fi
    if [ ! -f "$record" ]; then echo "the program there wasn't built by --build" && return; fi
    changed=$(record_lines | diff "$record" - | sed -n -e 's/^< program .*/the program there/p' -e 's/^[<>] .* \(crates\/\)/\1/p')
    printf '%s was changed since it was proved\n' "$(printf '%s\n' "${changed:-crates.txt or HANDLES}" | sed 1q)"
}

version() {
    revision=$(git --git-dir="$top/.git" --work-tree="$top" describe --always --abbrev=12 --exclude='*' \
        --dirty=', with changes' 2>/dev/null) || revision=unknown
    kit=$(rt version 2>/dev/null) || kit='none: no command rt here'
    if is_proved; then state='proved and built'; else state="not proved: $(why_unproved); ./ntbsim --build proves and builds it"; fi
    printf 'ntbsim %s\nrevision %s\nkit %s\nprogram %s\n' "$number" "$revision" "$kit" "$state"
}

# The compiled program's place in the cache, for these sources and this kit.
unproved_path() { printf '%s/%s\n' "$cache" "$({ source_lines src && rt version </dev/null; } | sum)"; }

# Says once an hour, for each clone, that answers come without proof, and what `more` has.
warn() {
    mark=$cache/.said.$(printf '%s' "$top" | sum)
    if [ "${NTBSIM_QUIET-}" = 1 ] || [ -n "$(find "$mark" -mmin -60 2>/dev/null)" ]; then return 0; fi
    note "answers come without proof, from a program that is some hundred times slower$more; ./ntbsim --build proves and builds"
    if mkdir -p "$cache"; then touch "$mark"; fi 2>/dev/null || :
}

# Whether a program stands that can answer: the proved one, or one that was compiled of these sources.
stands() {
    is_proved && answering=$program && return
    [ -f "$top/crates.txt" ] && command -v rt >/dev/null 2>&1 || return 1
    answering=$(unproved_path) && [ -x "$answering" ] && warn
}
