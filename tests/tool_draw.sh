# zaq draw as a command, and that the arcs it colours are those that sound takes; tests/pictures.sh has the rest of the picture. Sourced by
# tests/tool.sh.

coloured() { # the arcs in colour of the nameless house that was drawn last
    sed -nE 's/.*class="way" .*<title>node ([0-9]+) to node ([0-9]+).*/\1 \2/p' "$work/out" | sort -u
}

arcs_of_ways() { # the arcs on all ways that zaq routes --json told last
    grep -oE '"way": \[[0-9, ]+\]' "$work/out" | tr -cd '0-9 \n' | awk '{ for (k = 2; k <= NF; k++) print $(k - 1), $k }' | sort -u
}

draws() {
    local words
    for words in "" 1 "$work/p4" "$work/p8"; do
        ask draw "$work/q" $words
        verdict "zaq draw Q $words: status $status, $(cat "$work/err")" test "$status$(cat "$work/err")" = 0
        verdict "zaq draw Q $words draws" grep -q '<svg' "$work/out"
        cp "$work/out" "$work/drawn"
        rm -f "$work/picture.svg"
        ask draw "$work/q" $words -o "$work/picture.svg"
        verdict "zaq draw Q $words draws something else to a file" cmp -s "$work/picture.svg" "$work/drawn"
    done
    bad 1 'refused 11: node or target outside 1 to n (node 4, and n is 3)' draw "$work/q" 4
    bad 1 "$work/steps: refused 15: table file version not 1" draw "$work/q" "$work/steps"
    bad 2 "$work/nothing: No such file or directory" draw "$work/q" "$work/nothing"
}

same_arcs() { # same_arcs NET NODE WHAT: coloured are the arcs on the ways from the node, and no other
    ask routes --json --net "$1" "$2"
    arcs_of_ways > "$work/arcs"
    ask draw --net "$1" "$2"
    verdict "$3: drawn from $2 are other arcs: $(diff <(coloured) "$work/arcs" | grep '^[<>]' | xargs)" cmp -s <(coloured) "$work/arcs"
}

several_last_arcs() {
    local node
    # two ways from 2 to 5 have length 3, by 3 and 8 and by 4 and 7: 2 takes the lower first hop, 3, so the last arc has the higher tail, 8
    printf 'lmax 3\n%s' "$(printf 'device %s\n' {1..8})" > "$work/last.txt"
    printf '\nlink %s -> %s length 1' 1 2 2 3 3 8 8 5 2 4 4 7 7 5 5 6 >> "$work/last.txt"
    ask draw "$work/last.txt" 1
    verdict "of two last arcs the wrong one is drawn: $(coloured | xargs)" \
        test "$(coloured | xargs)" = '1 2 2 3 2 4 3 8 4 7 5 6 8 5'
    ask pack "$work/last.txt" -o "$work/last"
    for node in {1..8}; do same_arcs "$work/last" "$node" 'the house with two last arcs'; done
}

random_ways() { # what zaq routes tells is held to the independent program first
    local seed n tried=0
    find_independent
    for ((seed = 201; seed <= 216; seed++)); do
        "$independent" input "$seed" > "$work/input"
        take_apart
        ask check --net "$work/net"
        [ "$status" = 0 ] || continue
        n=$(($(od -An -tu1 -N1 "$work/net") % 16 + 1))
        tried=$((tried + 1))
        right_routes "$seed"
        same_arcs "$work/net" 1 "seed $seed"
        same_arcs "$work/net" "$n" "seed $seed"
    done
    verdict "only $tried random houses were drawn" test "$tried" -ge 8
}

far_record() {
    local green='#047857' # of first hop 3
    # node 1 of 6, LMAX 9; a 1 bit, then target 5, first hop 3 and difference 8, each of the first two less 1; the rest is padding
    bytes 1059a147 > "$work/far"
    ask pack examples/house.txt -o "$work/sample"
    ask draw "$work/sample" "$work/far"
    verdict "a far record alone: status $status, $(cat "$work/err")" test "$status$(cat "$work/err")" = 0
    # by hand: 3 + 2 + 3 by 3 and 4 is less than 3 + 6
    verdict "a far record alone has the route $(coloured | xargs)" test "$(coloured | xargs)" = '1 3 3 4 4 5'
    verdict 'a far record alone: the route has not one colour' \
        test "$(grep -oE 'class="way" stroke="[^"]*"' "$work/out" | sort -u)" = "class=\"way\" stroke=\"$green\""
    verdict 'a far record alone: its target has no rim in colour' \
        grep -qF "class=\"node known\"><title>node 5: distance 8 by 3</title><circle class=\"rim\" stroke=\"$green\"" "$work/out"
    verdict 'a far record alone: all other nodes are unknown' test "$(grep -c 'class="node unknown"' "$work/out")" = 4
    verdict 'an unknown node on the route has no colour of its own' \
        grep -qF 'class="node unknown"><title>node 4: unknown</title><circle class="rim" cx=' "$work/out"
}

test_draw() {
    draws
    several_last_arcs
    random_ways
    far_record
}
