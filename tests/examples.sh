#!/usr/bin/env bash
# The C programs of examples/, compiled without a warning against the header and the static library, and run: what table_file prints is
# document 01's network Q, P4 and P7 to P9. Then once more under valgrind or, where there is none, with the compiler's sanitizers.
. "$(dirname "$0")/verdict.sh"

folder=$built/examples
mkdir -p "$folder"
rm -rf "${folder:?}"/*
library=$(bash tools/library.sh)
verdict 'the static library is built' test -n "$library"

build() { # build FOLDER FLAG..: both programs
    local into=$1 program
    shift
    mkdir -p "$into"
    for program in table_file routes; do
        verdict "$program compiles" \
            "$CC" -std=c99 -Wall -Wextra -Wpedantic -Werror "$@" -Iinclude "examples/$program.c" "$library" -o "$into/$program"
    done
}

# by hand: the soundbar's way to the kitchen is 2 + 3, the repeater's 1 + 4, and of equals the lower number goes first
routes='television -> soundbar: distance 2
television -> repeater: distance 1
television -> soundbar -> kitchen: distance 5
television to attic: no way'

# what the file says when it has this many bytes
said() {
    echo "Bytes in the file: $1"
    case $1 in
    0 | 1) printf '  device %d: the file is too short to say anything (refusal 14)\n' 1 2 3 ;;
    2 | 3) printf '  device %s\n' '1: this one' '2: not known yet' '3: not known yet' ;;
    4 | 5) printf '  device %s\n' '1: this one' '2: at distance 1, first hop 2' '3: not known yet' ;;
    6) printf '  device %s\n' '1: this one' '2: at distance 1, first hop 2' '3: at distance 2, first hop 2' ;;
    esac
}

expected() { # expected KEEP
    said 6
    echo "Power was lost after byte $1."
    said "$1"
}

# prints TEXT ARGUMENT..: exactly that, nothing on standard error, and status 0
prints() {
    local text=$1 out
    shift
    out=$("${run[@]}" "$@" 2> "$folder/complaint") && [ "$out" = "$text" ] && [ ! -s "$folder/complaint" ]
}

# complains STATUS TEXT ARGUMENT..: it says why on standard error, prints nothing else, and ends with the status
complains() {
    local status=$1 text=$2 out
    shift 2
    out=$("${run[@]}" "$@" 2> "$folder/complaint")
    [ $? -eq "$status" ] && [ -z "$out" ] && grep -qF -- "$text" "$folder/complaint"
}

try_all() {
    local keep file=$folder/table
    for keep in 0 1 2 3 4 5 6; do
        verdict "a file cut to $keep bytes" prints "$(expected "$keep")" "$file" "$keep"
        verdict "$keep bytes are left" test "$(wc -c < "$file")" -eq "$keep"
    done
    verdict 'the file is P4' test "$(od -An -tx1 < "$file")" = ' 10 24 88 8c 84 40'
    verdict 'it keeps 4 bytes if not told' prints "$(expected 4)" "$file"
    verdict 'help' grep -q '^usage: table_file FILE' <("${run[@]}" --help)
    verdict 'no argument' complains 2 'usage: table_file FILE'
    verdict 'too many arguments' complains 2 'usage: table_file FILE' "$file" 4 5
    for keep in x 4x '' -1 28 99999999999999999999; do
        verdict "KEEP '$keep'" complains 2 "KEEP is a number from 0 to 27, not '$keep'" "$file" "$keep"
    done
    verdict 'more bytes than there are' complains 2 "$file has 6 bytes: it cannot be cut to 7" "$file" 7
    verdict 'a folder that is not there' complains 1 "$folder/none/table: " "$folder/none/table"
    verdict 'a folder in place of a file' complains 1 "$folder: " "$folder"
    verdict 'no name at all' complains 1 ': ' ''
}

build "$folder/plain" -O2
run=("$folder/plain/table_file")
try_all
run=("$folder/plain/routes")
verdict 'the routes' prints "$routes"

if [ "$emulated" = yes ]; then
    echo 'not once more under valgrind or with sanitizers: the programs are emulated here'
    closing_line
    exit
elif command -v valgrind > /dev/null; then
    echo 'once more under valgrind'
    again=(valgrind -q --error-exitcode=99 --leak-check=full)
    programs=$folder/plain
else
    echo 'no valgrind found: once more with -fsanitize=address,undefined'
    again=()
    programs=$folder/sanitized
    build "$programs" -g -fsanitize=address,undefined -fno-sanitize-recover
fi
run=("${again[@]}" "$programs/table_file")
try_all
run=("${again[@]}" "$programs/routes")
verdict 'the routes once more' prints "$routes"

closing_line
