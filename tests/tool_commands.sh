# What each command says of good input, and of what the library refuses. Sourced by tests/tool.sh. Answers come from docs/FORMATS.md (Q, P1
# to P12, the worked run) and, for the sample house, from adding up its lengths by hand.

checks() {
    says 'examples/house.txt is accepted: 6 devices, 13 arcs, LMAX 9; at most 799 steps of a run are taken' check examples/house.txt
    says "$work/q is accepted: 3 devices, 4 arcs, LMAX 4; at most 67 steps of a run are taken" check "$work/q"
    says 'standard input is accepted: 3 devices, 4 arcs, LMAX 4; at most 67 steps of a run are taken' check - < "$work/q"
    says "$work/two is accepted: 2 devices, 1 arc, LMAX 1; at most 7 steps of a run are taken" check "$work/two" --net
    check_refused 1 1240 'network bytes under 3, or not the number of bytes that its arcs take'
    check_refused 1 1240040111210222 'network bytes under 3, or not the number of bytes that its arcs take'
    check_refused 2 224004011121022204 'network version not 1, or the fourth field not 0'
    check_refused 3 120004011121022204 'LMAX outside 1 to 15'
    check_refused 4 1240f1011121022204 'more than 240 arcs'
    check_refused 5 124004011121082204 'a tail or head outside 1 to n: arc 3, from 1 to 9, length 2'
    check_refused 6 124004011111022204 'an arc from a node to itself: arc 2, from 2 to 2, length 1'
    check_refused 7 124004011121022205 'an arc of length 0 or over LMAX: arc 4, from 3 to 1, length 5'
    check_refused 8 124004011121013204 'two arcs with the same tail and head: arc 3, from 1 to 2, length 3'
    check_refused 9 1240030111210221 'a padding bit of the network not 0'
    # the first wrong arc is told, though a later one is wrong too
    check_refused 7 124004011120022000 'an arc of length 0 or over LMAX: arc 2, from 2 to 3, length 0'
    : > "$work/empty"
    bad 1 "$work/empty: the file is empty, expected a house text or network bytes" check "$work/empty"
    bad 1 "$work/empty: the file is empty, expected a house text or network bytes" check "$work/empty" --net
    # a text is a text unless --net says otherwise
    bad 1 'refused 2: network version not 1' check --net examples/house.txt
}

check_refused() { # check_refused NUMBER DIGITS WORDS
    bytes "$2" > "$work/wrong"
    bad 1 "$work/wrong: refused $1: $3" check "$work/wrong" --net
}

routes() {
    local living='1 (television, living room)' hall='3 (repeater, hall)' kitchen='4 (television, kitchen)'
    says "from $living:
  to 2 (soundbar, living room), distance 1: $living -> 2 (soundbar, living room)
  to $hall, distance 3: $living -> $hall
  to $kitchen, distance 5: $living -> $hall -> $kitchen
  to 5 (speaker, bedroom), distance 8: $living -> $hall -> $kitchen -> 5 (speaker, bedroom)
  to 6 (speaker, terrace), distance 14: $living -> $hall -> $kitchen -> 6 (speaker, terrace)" routes examples/house.txt 1
    says "from $living to 6 (speaker, terrace): distance 14, first hop $hall
  $living -> $hall, length 3
  $hall -> $kitchen, length 2
  $kitchen -> 6 (speaker, terrace), length 9" routes examples/house.txt 1 6
    says "from 6 (speaker, terrace) to $living: unreachable" routes examples/house.txt 6 1
    says "from $kitchen to $kitchen: itself" routes examples/house.txt 4 4
    # P1 to P3
    says 'from node 1:
  to node 2, distance 1: node 1 -> node 2
  to node 3, distance 2: node 1 -> node 2 -> node 3
from node 2:
  to node 1, distance 5: node 2 -> node 3 -> node 1
  to node 3, distance 1: node 2 -> node 3
from node 3:
  to node 1, distance 4: node 3 -> node 1
  to node 2, distance 5: node 3 -> node 1 -> node 2' routes "$work/q"
    says 'from node 2:
  to node 1: unreachable' routes - 2 < "$work/two"
    for node in 0 4 256 257 4294967297 99999999999999999999; do
        bad 1 "refused 11: node or target outside 1 to n (node $node, and n is 3)" routes "$work/q" "$node"
        bad 1 "refused 11: node or target outside 1 to n (node $node, and n is 3)" routes "$work/q" 1 "$node"
    done
    bad 1 "$work/wrong: refused 7: an arc of length 0 or over LMAX: arc 2, from 2 to 3, length 0" routes "$work/wrong"
}

runs() {
    says '5 steps: 4 taken, 1 idle, 0 unknown; 2 of 2 devices started, 2 stopped
node 1 has stopped:
  to node 1: itself
  to node 2: distance 1, first hop node 2
node 2 has stopped:
  to node 1: unreachable
  to node 2: itself' run "$work/two" "$work/steps"
    # after three steps node 1 knows every target, and has not stopped
    says '3 steps: 3 taken, 0 idle, 0 unknown; 2 of 2 devices started, 1 stopped
node 1 has started:
  to node 1: itself
  to node 2: distance 1, first hop node 2
node 2 has stopped:
  to node 1: unreachable
  to node 2: itself' run "$work/two" - < <(head -c 3 "$work/steps")
    says '1 step: 1 taken, 0 idle, 0 unknown; 1 of 2 devices started, 0 stopped
node 1 has started:
  to node 1: itself
  to node 2: unknown
node 2 has not started: it knows nothing' run "$work/two" - < <(head -c 1 "$work/steps")
    says 'after 2 steps: 2 taken, 0 idle, 0 unknown; 2 of 2 devices started, 1 stopped
  node 1 has started
  node 2 has started
  node 2 knows node 1: unreachable
  node 2 has stopped
after 4 steps: 4 taken, 0 idle, 0 unknown; 2 of 2 devices started, 2 stopped
  node 1 knows node 2: distance 1, first hop node 2
  node 1 has stopped
after 5 steps: 4 taken, 1 idle, 0 unknown; 2 of 2 devices started, 2 stopped' run "$work/two" "$work/steps" --every 2
    says 'after 0 steps: 0 taken, 0 idle, 0 unknown; 0 of 2 devices started, 0 stopped' run "$work/two" /dev/null --every 3
    # the tool's own steps: two starts and two rounds on one arc
    ask run "$work/two"
    verdict "its own steps: $(head -n 1 "$work/out")" \
        grep -qx '4 steps: 4 taken, 0 idle, 0 unknown; 2 of 2 devices started, 2 stopped' "$work/out"
    # a million times step 00: node 1 starts once; then a byte that names no node
    { head -c 1000000 /dev/zero; printf '\x05'; } > "$work/long"
    ask run "$work/two" "$work/long"
    verdict "a million steps: $(head -n 1 "$work/out")" \
        grep -qx '1000001 steps: 1 taken, 999999 idle, 1 unknown; 1 of 2 devices started, 0 stopped' "$work/out"
}

writes() { # writes DIGITS ARGUMENT..: the table file
    local wanted=$1
    shift
    rm -f "$work/table"
    ask write "$@" -o "$work/table"
    verdict "zaq write $*: status $status, $(cat "$work/err" "$work/out")" test "$status$(cat "$work/err" "$work/out")" = 0
    verdict "zaq write $*: $(digits "$work/table"), not $wanted" test "$(digits "$work/table")" = "$wanted"
}

table_files() {
    writes 1024888c8440 "$work/q" 1
    writes 1124910c0900 "$work/q" 2
    # by hand: 2 at 1 by 2, then by 3: 3 at 3, 4 at 5, 5 at 8, 6 at 14
    writes 1059888c88a645423a9300 examples/house.txt 1
    bytes 0001 > "$work/some"
    writes 1024 "$work/q" "$work/some" 1
    bytes 000110 > "$work/some"
    writes 1024888f "$work/q" "$work/some" 1
    writes 1024888f "$work/q" - 1 < "$work/some"
    ask write "$work/q" 1 -o -
    verdict 'a table file on standard output' cmp -s "$work/out" "$work/p4"
    bad 1 "$work/q: refused 12: file wanted of a node not started" write "$work/q" /dev/null 1 -o "$work/table"
    bad 1 "$work/q: refused 12: file wanted of a node not started" write "$work/q" "$work/some" 3 -o "$work/table"
    bad 1 'refused 11: node or target outside 1 to n (node 4, and n is 3)' write "$work/q" 4 -o "$work/table"
    verdict 'a refused write leaves the old file' test "$(digits "$work/table")" = 1024888f
}

shown() { # shown FILE NODE HOUSE STATE ENTRY..: what is said of a file
    local file=$1 heading="node $2, in a house of $3" state=$4
    shift 4
    says "$work/$file: the table of $heading
  $state
$(printf '  to node %s\n' "$@")" show "$work/$file"
}

shows() {
    local q='3 devices with LMAX 4' whole='whole: the end mark is there'
    local cut='no end mark: the file was cut, or its device had not stopped when it was written'
    shown p4 1 "$q" "$whole" '1: itself' '2: distance 1, first hop node 2' '3: distance 2, first hop node 2'
    shown p5 1 "$q" 'no end mark, but no target is unknown: nothing is missing' \
        '1: itself' '2: distance 1, first hop node 2' '3: distance 2, first hop node 2'
    shown p6 1 "$q" "$cut" '1: itself' '2: distance 1, first hop node 2' '3: unknown'
    shown p7 1 "$q" "$cut" '1: itself' '2: distance 1, first hop node 2' '3: unknown'
    shown p8 1 "$q" "$cut" '1: itself' '2: unknown' '3: unknown'
    shown p10 2 "$q" "$whole" '1: distance 5, first hop node 3' '2: itself' '3: distance 1, first hop node 3'
    shown p11 1 '1 device with LMAX 1' "$whole" '1: itself'
    show_refused 14 10 'table file under 2 bytes'
    show_refused 14 '' 'table file under 2 bytes'
    show_refused 15 202488 'table file version not 1'
    show_refused 16 132488 'own number over n, or LMAX 0'
    show_refused 17 1024808c8440 'a whole record of the file is wrong'
    show_refused 18 1024888c8441 'after the end mark, a bit not 0 or a further byte'
    show_refused 18 1024888c844000 'after the end mark, a bit not 0 or a further byte'
    ask show "$work/p4" "$work/wrong" "$work/p6" "$work/nothing" - < "$work/p10"
    verdict "several files, one not there: status $status, not 2" test "$status" = 2
    verdict "several files: $(tail -n 1 "$work/out")" \
        test "$(tail -n 1 "$work/out")" = '5 files: 2 whole, 1 without an end mark, 1 refused, 1 not read'
    verdict 'several files: each is told' \
        test "$(grep -c '^[^ ].*: the table of ' "$work/out") $(grep -c '^zaq: ' "$work/err")" = '3 2'
    ask show "$work/p4" "$work/p4"
    verdict 'a good file twice' test "$status $(tail -n 1 "$work/out")" = '0 2 files: 2 whole, 0 without an end mark, 0 refused, 0 not read'
}

show_refused() { # show_refused NUMBER DIGITS WORDS
    bytes "$2" > "$work/wrong"
    bad 1 "$work/wrong: refused $1: $3" show "$work/wrong"
}

show_with_house() {
    local house=$work/q.txt
    printf 'lmax 4\ndevice 1 tv\ndevice 2\ndevice 3 bar\nlink 1 -> 2 length 1\nlink 2 -> 3 length 1\nlink 1 -> 3 length 2\n' > "$house"
    echo 'link 3 -> 1 length 4' >> "$house"
    says "$work/p4: the table of 1 (tv), in a house of 3 devices with LMAX 4
  whole: the end mark is there
  to 1 (tv): itself
  to node 2: distance 1, first hop node 2
  to 3 (bar): distance 2, first hop node 2" show "$work/p4" --house "$house"
    ask show --house "$work/q" "$work"/p[45678] "$work/p10"
    verdict "all files of Q are of Q: $(cat "$work/err")" test "$status$(cat "$work/err")" = 0
    # the second half byte is n less 1: a house of 1, of 2 and of 4
    another 'it has 1 device, and the house 3' 100400
    another 'it has 2 devices, and the house 3' 1014
    another 'it has 4 devices, and the house 3' 1034
    another "its LMAX is 5, and the house's 4" 1025
    another 'from 1 to 2 it says distance 2 by 3, and the house distance 1 by 2' 10248910
    another 'from 1 to 2 it says unreachable, and the house distance 1 by 2' 102400
    # the right distance by a higher first hop
    another 'from 1 to 3 it says distance 2 by 3, and the house distance 2 by 2' 1024888c8840
    ask show --house "$work/q" "$work/wrong" "$work/p4"
    verdict "one of another house: $(tail -n 1 "$work/out")" \
        test "$status $(tail -n 1 "$work/out")" = '1 2 files: 1 whole, 0 without an end mark, 1 refused, 0 not read'
}

another() { # another REASON DIGITS: a file that is not of Q, to show and to draw
    bytes "$2" > "$work/wrong"
    bad 1 "$work/wrong: not of this house: $1" show --house "$work/q" "$work/wrong"
    bad 1 "$work/wrong: not of this house: $1" draw "$work/q" "$work/wrong"
}

test_commands() {
    checks
    routes
    runs
    table_files
    shows
    show_with_house
}
