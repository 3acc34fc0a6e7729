#!/usr/bin/env bash
# The program house_table, run as a bench crew runs it, against document 01's worked example and against an independent program: every
# refusal, random inputs, input that arrives in pieces, and input that goes on after the 65,000 bytes that are used. And what it says on
# standard error of a refusal, a failed read, a failed write and arguments, with the exit status that tools/house_table.sh gives.
. "$(dirname "$0")/verdict.sh"

verdict "it is proved and built" bash tools/build_house_table.sh > /dev/null
program=$(program house_table)
independent=target/outside/outside
work=target/house_table
input=$work/input
rm -rf "$work"
mkdir -p "$work"

same() { # same TEXT: the program and the independent one print the same for the input
    "$independent" print < "$input" > "$work/right"
    verdict "$1: the independent program says nothing" test -s "$work/right"
    verdict "$1" cmp -s <("$program" < "$input" 2> "$work/complaint") "$work/right"
    # a refusal's line is 01's, and stands on standard error with the program's name
    verdict "$1: '$(cat "$work/complaint")' on standard error" \
        test "$(cat "$work/complaint")" = "$(sed -n 's/^refused /house_table: &/p' "$work/right")"
}

refused() { # refused NUMBER DIGITS: the whole output is the one line, also where steps follow
    bytes "$2" > "$input"
    "$program" < "$input" > "$work/out" 2> "$work/complaint"
    verdict "$2 is refused with '$(cat "$work/out")', not $1" test "$(cat "$work/out")" = "refused $1"
    verdict "$2 is refused in one line" test "$(wc -l < "$work/out")" = 1
    verdict "$2: '$(cat "$work/complaint")' on standard error" test "$(cat "$work/complaint")" = "house_table: refused $1"
}

verdict 'it is built' test -x target/bin/house_table
verdict 'the independent program is built' test -x "$independent"

worked='taken 4 idle 1 unknown 0 stopped 2
1 1 0 0
1 2 1 2
2 1 - -
2 2 0 0'
bytes 11100101100001101010 > "$input"
verdict "01's worked example" test "$("$program" < "$input")" = "$worked"
same "01's worked example"

bash tools/sample_house.sh > "$input"
same 'the sample house'
verdict 'every device of the sample house has stopped' grep -q ' stopped 6$' <("$program" < "$input")

# every refusal of a network's bytes, with document 01's network Q and the step bytes 00 01 10 after it
refused 1 ''
refused 1 12
refused 1 1240
refused 1 124004
refused 1 1240040111210222
refused 2 224004011121022204000110
refused 2 124104011121022204000110
refused 3 120004011121022204000110
refused 4 1240f1011121022204000110
refused 5 124004031121022204000110
refused 5 124004311121022204000110
refused 6 124004001121022204000110
refused 7 124004015121022204000110
refused 7 124004010121022204000110
refused 8 124004011011022204000110
refused 9 1240030111210221000110
# input that ends inside the network: 1 comes in its usual place, after 2, 3 and 4 and before the arcs
refused 2 224004
refused 3 120004
refused 4 1240f1
refused 1 12400403112102

for ((seed = 1; seed <= 40; seed++)); do
    "$independent" input "$seed" > "$input"
    same "random input $seed"
done

# what goes wrong: told on standard error, and by the status that tools/house_table.sh gives, whose output is the program's own
ends() { # ends STATUS SAYS OUT: of the shell command in $command, with $run for the program
    local status=0
    for run in "$program" "$PWD/tools/house_table.sh"; do
        rm -f "$work/out"
        (eval "$command") > "$work/out" 2> "$work/complaint"
        status=$?
        verdict "$command: '$(cat "$work/complaint")' on standard error" test "$(cat "$work/complaint")" = "$2"
        verdict "$command: '$(cat "$work/out")' on standard output" test "$(cat "$work/out")" = "$3"
    done
    verdict "$command: status $status, not $1" test "$status" -eq "$1"
}
bytes 11100101100001101010 > "$work/worked"
bytes 124004031121022204 > "$work/five" # network Q with a node 4 as a tail: refusal 5
reading='house_table: reading failed' writing='house_table: writing failed'
command='"$run" < "$work/worked"' && ends 0 '' "$worked"
command='"$run" < "$work/five"' && ends 1 'house_table: refused 5' 'refused 5'
command='"$run" < "$work"' && ends 2 "$reading" '' # a directory
command='"$run" <&-' && ends 2 "$reading" ''
command='"$run" < "$work/worked" > /dev/full' && ends 2 "$writing" ''
command='"$run" < "$work/worked" >&-' && ends 2 "$writing" ''
command='"$run" < "$work/five" > /dev/full' && ends 2 "house_table: refused 5
$writing" ''
usage='usage: house_table < INPUT    INPUT is a network'"'"'s bytes, then step bytes'
command='"$run" "$work/worked" < "$work/five"' && ends 2 "$usage" ''
command='"$run" "" < "$work/five"' && ends 2 "$usage" ''
command='{ "$run" --help; cat; } < "$work/five" | wc -c' && ends 0 "$usage" 9 # nothing is read
command='"$run" < "$work/worked" 2>&-' && ends 0 '' "$worked"

# pieces, each after a pause: a read that gives fewer bytes than were asked for is not the end of input
slowly() { # slowly PIECE..: each piece is hexadecimal digits
    local piece
    for piece in "$@"; do
        bytes "$piece"
        sleep 0.15
    done
}
verdict 'input byte by byte' test "$(slowly 11 10 01 01 10 00 01 10 10 10 | "$program")" = "$worked"
verdict 'input cut inside the network and inside the steps' test "$(slowly 1110 010110 0001 101010 | "$program")" = "$worked"
verdict 'a network in pieces that never becomes whole' test "$(slowly 12 4004 0111210222 | "$program" 2> /dev/null)" = 'refused 1'

# a house of sixteen: every device hears the next two, and steps go beyond the 65,000 bytes that are used
digits=1f9020
for ((k = 0; k < 16; k++)); do
    digits+=$(printf '%x%x2%x%x5' $k $(((k + 1) % 16)) $k $(((k + 2) % 16)))
done
for ((k = 0; k < 16; k++)); do digits+=$(printf %02x $k); done
bytes "$digits" > "$input"
digits=
for ((k = 16; k < 48; k++)); do digits+=$(printf %02x $k); done
bytes "$digits" > "$work/round"
for ((round = 0; round < 2100; round++)); do cat "$work/round"; done >> "$input"
all=$(wc -c < "$input")
verdict 'the long input is longer than is used' test "$all" -gt 65000
same 'a house of sixteen'
verdict 'all sixteen have stopped' grep -q ' stopped 16$' <("$program" < "$input")
cp "$work/right" "$work/long"

# it uses the first 65,000 bytes, the network's 51 among them, and reads no further: what comes after them is there for the next reader
steps_used() { awk 'NR == 1 { print $2 + $4 + $6 }' "$1"; }
verdict "$(steps_used "$work/long") steps are used, not 65,000 less the network" test "$(steps_used "$work/long")" = $((65000 - 51))
{ "$program" > "$work/out"; cat > "$work/rest"; } < "$input"
verdict 'of a file, the rest is left unread' cmp -s "$work/rest" <(tail -c +65001 "$input")
verdict 'of a file, the first 65,000 bytes are used' cmp -s "$work/out" "$work/long"
cat "$input" | { "$program" > "$work/out"; cat > "$work/rest"; }
verdict 'of a pipe, the rest is left unread' cmp -s "$work/rest" <(tail -c +65001 "$input")
verdict 'of a pipe, the first 65,000 bytes are used' cmp -s "$work/out" "$work/long"
mkfifo "$work/open"
exec 3<> "$work/open" # held open: it never comes to an end
head -c 65000 "$input" >&3
verdict 'it does not wait for more than 65,000 bytes' timeout 20 "$program" < "$work/open" > "$work/out"
exec 3>&-
verdict 'of a pipe that stays open, the first 65,000 bytes are used' cmp -s "$work/out" "$work/long"
for size in 64999 65000 65001; do
    head -c "$size" "$input" > "$work/part"
    verdict "input of $size bytes" cmp -s <("$program" < "$work/part") <("$independent" print < "$work/part")
done

for ((cut = 1; cut < 8; cut++)); do
    bash tools/sample_house.sh network | head -c "$cut" > "$input"
    same "input cut to $cut bytes"
done

closing_line
