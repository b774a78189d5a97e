# What examples/judge and examples/upload have in common: they source it, once `root` and `takes` are set.
# shellcheck shell=bash

usage() {
    echo "${1:+$1; }usage: examples/$(basename "$0") $takes, with numbers up to 255; NAME is one of:" >&2
    (cd "$root/examples" && printf '%s\n' *.txt *.set | sed 's/\.[a-z]*$//' | sort -u | paste -sd ' ') >&2
    exit 2
}

# The file of an example or of the caller's. Words and bytes of an example must be the same set, or it is not clear which is meant.
file_of() {
    local file both="$root/examples/$1"
    if [ -f "$both.txt" ] && [ -f "$both.set" ] && ! "$root/sets/bytes" "$both.txt" | cmp -s - "$both.set"; then
        echo "$1.txt and $1.set in examples/ differ: name the file that you mean" >&2
        exit 1
    fi
    for file in "$both.txt" "$both.set" "$1"; do
        [ ! -f "$file" ] || { echo "$file"; return; }
    done
    usage "$1 is no example and no file"
}

# Prints a number as one byte.
byte() { printf "\\$(printf %03o "$((10#$1))")"; }

# Prints what a program takes: m, p and q, and the bytes of the set. It is given NAME|FILE M P/Q.
input_of() {
    local file number numbers
    [[ $2/$3 =~ ^([0-9]{1,3})/([0-9]{1,3})/([0-9]{1,3})$ ]] || usage
    numbers=("${BASH_REMATCH[@]:1}")
    for number in "${numbers[@]}"; do [ "$number" -le 255 ] || usage; done
    file=$(file_of "$1")
    for number in "${numbers[@]}"; do byte "$number"; done
    case $file in
        *.txt) "$root/sets/bytes" "$file" ;;
        *) cat < "$file" ;;
    esac
}

# Builds a program if it is missing.
build() {
    if [ ! -x "$root/target/bin/$1" ]; then
        echo "The program is not built yet. It is proved and built first, which takes some ten minutes: tools/build $1" >&2
        "$root/tools/build" "$1" >&2 || exit 1
    fi
}

# Runs a program.
run() {
    # shellcheck disable=SC2046
    $("$root/tests/emulator") "$root/target/bin/$1"
}
