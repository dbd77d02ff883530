# What the tests in shell share. Each begins with it, such as:  . "$(dirname -- "$0")/shared.sh"
# A test ends at its first fault. The repository is `root`, and `folder` is removed at the end.

set -eu

root=$(CDPATH='' cd -- "$(dirname -- "$0")" && pwd -P)
tool=$root/$(basename -- "$0")
while [ ! -f "$root/crates.txt" ]; do
    root=${root%/*}
    [ -n "$root" ] || exit 1
done
tool=${tool#"$root/"}
folder=$(mktemp -d)
trap 'rm -rf -- "$folder"' EXIT

# What is tried, in words, and the files of `folder` that show it: a fault prints both.
tried=
evidence=

# Ends the test: what is tried has the fault that these words name.
fail() {
    echo "$tool: ${tried:+$tried: }$1" >&2
    for file in $evidence; do
        [ ! -f "$folder/$file" ] || cat -- "$folder/$file" >&2
    done
    exit 1
}

# The built program of this name, which has to be proved and current, is `program`.
proved() {
    "$root/tools/run" --is-proved "$1"
    program=$root/crates/$1/out/$1
}

# The run that has just ended has this status.
has_status() {
    [ "$status" -eq "$1" ] || fail "status $status and not $1"
}

# A file has the bytes of another one. Else the test ends with these words.
is_same() {
    cmp -s -- "$1" "$2" || fail "$3"
}
