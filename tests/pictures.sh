#!/usr/bin/env bash
# `zaq draw`: right marks for good input, lines clear of nodes that are not theirs, names that stay XML and in their place, the number and
# the words for every refusal, and never a crash. ZAQ names another program to try in place of the one that is built here.
. "$(dirname "$0")/verdict.sh"

work=$built/pictures_test
rm -rf "$work"
mkdir -p "$work"
zaq=${ZAQ:-$built/bin/zaq}
if [ -z "${ZAQ:-}" ]; then verdict 'zaq is built' bash tools/build.sh; fi
picture=$work/picture.svg

well_formed() { # well_formed FILE: by whichever parser there is, else as many tags opened as closed and the last one svg's
    if command -v xmllint > /dev/null; then
        xmllint --noout "$1"
    elif command -v python3 > /dev/null; then
        python3 -c 'import sys, xml.etree.ElementTree as tree; tree.parse(sys.argv[1])' "$1"
    else
        [ "$(grep -o '<[a-z]' "$1" | wc -l)" = "$(grep -oE '</[a-z]+>|/>' "$1" | wc -l)" ] && [ "$(tail -n 1 "$1")" = '</svg>' ]
    fi
}

count() { grep -c "$1" "$picture"; } # count PATTERN: each mark stands on a line of its own
marks() { # how many routes are drawn, nodes dashed, nodes crossed
    echo "$(count 'class="way"') $(count 'class="node unknown"') $(count 'class="node unreachable">.*class="cross"')"
}
heads() { # how many heads routes have, arcs back under them, and all other arcs
    echo "$(count 'class="ahead"') $(count 'class="back"') $(count 'class="tip"')"
}
lengths() { count 'class="length"'; }

apart() { # no two lengths stand on each other
    sed -nE 's/.*class="length" x="([0-9.]+)" y="([0-9.]+)".*/\1 \2/p' "$picture" | awk '
        { for (k = 0; k < NR - 1; k++) { dx = x[k] - $1; dy = y[k] - $2; if (dx * dx < 15 * 15 && dy * dy < 11 * 11) bad++ }
          x[NR - 1] = $1; y[NR - 1] = $2 }
        END { exit bad > 0 || NR == 0 }'
}

# Samples every curve of a house without names: LINES of them, each from its tail's disc to its head's, and 4 or more away from all other
# discs, of which a route's line and the disc's own rim cover 3.
clear() { # clear LINES
    local x='([0-9.]+)' node='<title>node ([0-9]+)'
    sed -nE -e "s/.*class=\"(arc|way)\".* d=\"M$x $x Q$x $x $x $x\">$node to node ([0-9]+).*/line \\2 \\3 \\4 \\5 \\6 \\7 \\8 \\9/p" \
        -e "s/.*class=\"node .*$node.*<circle .*cx=\"$x\" cy=\"$x\" r=\"$x\".*/disc \\1 \\2 \\3 \\4/p" "$picture" | awk -v lines="$1" '
        function far(a, b, node) { return sqrt((a - x[node]) ^ 2 + (b - y[node]) ^ 2) - r[node] }
        $1 == "disc" { x[$2] = $3; y[$2] = $4; r[$2] = $5 }
        $1 == "line" { line[++count] = $0 }
        END {
            for (k = 1; k <= count; k++) {
                split(line[k], a, " ")
                if (far(a[2], a[3], a[8]) ^ 2 > 14 ^ 2 || far(a[6], a[7], a[9]) ^ 2 > 14 ^ 2) bad++
                for (t = 0; t <= 1; t += 0.01)
                    for (node in x)
                        if (node != a[8] && node != a[9] && far((1 - t) ^ 2 * a[2] + 2 * t * (1 - t) * a[4] + t ^ 2 * a[6],
                            (1 - t) ^ 2 * a[3] + 2 * t * (1 - t) * a[5] + t ^ 2 * a[7], node) < 4) bad++
            }
            exit bad > 0 || count != lines
        }'
}

draws() { # draws WORD..: into $picture, without a word, as XML
    local status=0
    "$zaq" draw "$@" > "$picture" 2> "$work/words" || status=$?
    verdict "draw $* leaves with $status" test "$status" = 0
    verdict "draw $* says '$(cat "$work/words")'" test ! -s "$work/words"
    verdict "draw $* gives XML" well_formed "$picture"
}

says() { # says TEXT: the picture has it
    verdict "the picture does not have: $1" grep -qF -- "$1" "$picture"
}

good() { # good NETWORK TABLE MARKS: is drawn, and with these marks
    draws "$1" "$2"
    verdict "$1 $2 has marks $(marks), not $3" test "$(marks)" = "$3"
}

refuses() { # refuses STATUS WORDS ARGUMENT..: nothing is drawn, and a line says why
    local wanted=$1 words=$2 status=0
    shift 2
    "$zaq" draw "$@" > "$picture" 2> "$work/words" || status=$?
    verdict "draw $* leaves with $status, not $wanted" test "$status" = "$wanted"
    verdict "draw $* draws" test ! -s "$picture"
    verdict "draw $* says '$(cat "$work/words")', not '$words'" grep -qF -- "$words" "$work/words"
    verdict "draw $* has a line that does not begin with zaq" test "$(grep -vc '^zaq: ' "$work/words")" = 0
}

house() { # house NODES LMAX ARC..: a network of arcs TAIL,HEAD,LENGTH, written here bit by bit
    local digits arc tail head length
    digits=$(printf '1%x%x0%02x' $(($1 - 1)) "$2" $(($# - 2)))
    for arc in "${@:3}"; do
        IFS=, read -r tail head length <<< "$arc"
        digits+=$(printf '%x%x%x' $((tail - 1)) $((head - 1)) "$length")
    done
    if [ $((${#digits} % 2)) = 1 ]; then digits+=0; fi
    bytes "$digits" > "$work/house"
}

# document 01's network Q and the files of its examples P4 to P11
q=124004011121022204 p4=1024888c8440
for file in "q $q" "p4 $p4" 'p5 1024888c847f' 'p6 1024888f' 'p7 1024888c84' 'p8 1024' 'p10 1124910c0900' 'lone 101000' 'p11 100100'; do
    bytes "${file#* }" > "$work/${file% *}"
done
good "$work/q" "$work/p4" '2 0 0'
says '<title>node 2: distance 1 by 2</title>'
says '<title>node 3: distance 2 by 2</title>'
says '<title>Table of node 1</title>'
verdict 'Q: an arc has not one head' test "$(heads)" = '2 0 2'
good "$work/q" "$work/p5" '2 0 0'
good "$work/q" "$work/p6" '1 1 0'
good "$work/q" "$work/p7" '1 1 0'
good "$work/q" "$work/p8" '0 2 0'
good "$work/q" "$work/p10" '2 0 0'
good "$work/lone" "$work/p11" '0 0 0'
good "$work/lone" 1 '0 0 0'
good "$work/q" 1 '2 0 0'
draws "$work/q"
verdict 'Q alone: marks or heads of a table' test "$(marks) $(heads)" = '0 0 0 0 0 4'
verdict 'Q alone: 4 lines clear of discs' clear 4
"$zaq" draw "$work/q" -o "$work/by_name.svg"
verdict 'a file that is named is not what standard output gets' cmp -s "$picture" "$work/by_name.svg"
"$zaq" draw "$work/q" -o - | cmp -s "$picture" -
verdict 'standard output by its sign' test "${PIPESTATUS[*]}" = '0 0'

# an unreachable node; and an arc back under a route can be seen: it has a hollow head
house 3 1 1,2,1 3,1,1
good "$work/house" 1 '1 0 1'
verdict 'a one-way link under a route' test "$(heads)" = '1 0 1'
house 2 5 1,2,5 2,1,5
good "$work/house" 1 '1 0 0'
verdict 'a two-way link under a route' test "$(heads)" = '1 1 0'
house 2 5 1,2,5 2,1,4
good "$work/house" 1 '1 0 0'
verdict 'a link whose ways have two lengths' test "$(heads) $(lengths)" = '1 0 1 2'

# 40 lines have their lengths, 41 only those on routes: node 1 has an arc to each of 14 others, so there are 14 routes
arcs=()
for i in 1 2 3 4; do
    for ((k = i + 1; k <= 15; k++)); do arcs+=("$i,$k,1"); done
done
house 15 1 "${arcs[@]:0:40}"
good "$work/house" 1 '14 0 0'
verdict "40 lines have $(lengths) lengths" test "$(lengths)" = 40
verdict '40 lines are clear of discs' clear 40
verdict 'lengths of 40 lines stand apart' apart
house 15 1 "${arcs[@]:0:41}"
good "$work/house" 1 '14 0 0'
verdict "41 lines have $(lengths) lengths" test "$(lengths)" = 14
draws "$work/house"
verdict "41 lines without a table have $(lengths) lengths" test "$(lengths)" = 0

# each size of house: rings and their chords, one way, both ways, and both ways with two lengths
for ((n = 3; n <= 16; n++)); do
    one=() both=() apart=()
    for ((k = 1; k <= n; k++)); do
        next=$((k % n + 1)) chord=$(((k + 1) % n + 1))
        one+=("$k,$next,2")
        both+=("$k,$next,2" "$next,$k,2")
        apart+=("$k,$next,2" "$next,$k,3")
        if ((n > 4)); then one+=("$k,$chord,3") both+=("$k,$chord,3" "$chord,$k,3") apart+=("$k,$chord,2" "$chord,$k,1"); fi
    done
    for kind in one both apart; do
        declare -n arcs_of=$kind
        house "$n" 3 "${arcs_of[@]}"
        draws "$work/house" 1
        lines=${#arcs_of[@]}
        if [ "$kind" = both ]; then lines=$((lines / 2)); fi
        verdict "$n nodes, $kind: $lines lines clear of discs" clear "$lines"
        verdict "$n nodes, $kind: heads $(heads)" test $(($(heads | tr ' ' +))) = "${#arcs_of[@]}"
    done
done

# a full house of sixteen, no two arcs of one pair alike, and a table that knows nothing yet
arcs=()
for ((i = 1; i <= 16; i++)); do
    for ((k = 1; k <= 16; k++)); do
        if ((i != k)); then arcs+=("$i,$k,$(((i * 5 + k * 2) % 14 + 1))"); fi
    done
done
house 16 14 "${arcs[@]}"
bytes 10fe > "$work/full.table"
good "$work/house" "$work/full.table" '0 15 0'
verdict 'a full house is clear of discs' clear "$(count 'class="arc"')"
cp "$picture" "$work/once.svg"
draws "$work/house" "$work/full.table"
verdict 'the same house gives the same bytes' cmp -s "$picture" "$work/once.svg"
good "$work/house" 1 '15 0 0'
verdict "a full house has $(lengths) lengths" test "$(lengths)" = 15

# names: the signs of XML, a long one, what XML does not take (U+FFFE), and none
long=$(printf 'w%.0s' {1..200})
printf '%s\n' 'lmax 1' $'device 1 <&>"\'' "device 2 $long" $'device 3 K\xc3\xbcche \xef\xbf\xbe' 'device 4' 'link 1 <-> 2 length 1' \
    > "$work/names"
draws "$work/names" 1
says '<title>Table of 1 (&lt;&amp;&gt;&quot;&#39;)</title>'
says 'aria-label="Table of 1 (&lt;&amp;&gt;&quot;&#39;)"'
says '<tspan class="name">&lt;&amp;&gt;&quot;&#39;</tspan>'
says "<title>2 ($long): distance 1 by 2</title>"
says $'<title>3 (K\xc3\xbcche \xef\xbf\xbd): unreachable</title>'
says '<title>node 4: unreachable</title>'
# a label has 186 at size 13, and a w of DejaVu Sans, the widest font asked for, takes 0.818 of the size: 17 fit
verdict 'a long name runs out of its place' test "$(grep -oE '>w+'$'\xe2\x80\xa6''<' "$picture" | awk 'length > 20' | wc -l)" = 0
verdict 'a long name is not cut where it is shown' test "$(count '>w*'$'\xe2\x80\xa6''</text>')" = 2
draws "$work/names"
says '<title>House of 4 nodes</title>'

# the sample house; by hand: 5 by the kitchen is 3 + 2 + 3, less than 3 + 6, and the terrace is 3 + 2 + 9. Six bytes hold two records
verdict 'the pictures are made' env ZAQ="$zaq" bash tools/pictures.sh "$work/images" > /dev/null
for name in house_whole house_cut; do
    verdict "docs/images/$name.svg is what make pictures makes" cmp -s "docs/images/$name.svg" "$work/images/$name.svg"
done
picture=docs/images/house_whole.svg
verdict 'the sample house, whole' test "$(marks) $(heads) $(lengths)" = '5 0 0 5 4 4 7'
says '<title>Table of 1 (television, living room)</title>'
says '<title>5 (speaker, bedroom): distance 8 by 3</title>'
says '<title>6 (speaker, terrace): distance 14 by 3</title>'
picture=docs/images/house_cut.svg
verdict 'the sample house, cut' test "$(marks) $(heads) $(lengths)" = '2 3 0 2 2 9 7'
picture=$work/picture.svg

refused() { # refused NETWORK TABLE WORDS: both by their digits
    bytes "$1" > "$work/house"
    bytes "$2" > "$work/table"
    refuses 1 "$3" "$work/house" "$work/table"
}
refused 1240 "$p4" 'refused 1: network bytes under 3'
refused 1240040111210222 "$p4" 'refused 1: network bytes under 3'
refused 224004011121022204 "$p4" 'refused 2: network version not 1'
refused 120004011121022204 "$p4" 'refused 3: LMAX outside 1 to 15'
refused 1240f1011121022204 "$p4" 'refused 4: more than 240 arcs'
refused 1240030111210221 "$p4" 'refused 9: a padding bit of the network not 0'
refused "$q" 10 'refused 14: table file under 2 bytes'
refused "$q" 202488 'refused 15: table file version not 1'
refused "$q" 132488 'refused 16: own number over n, or LMAX 0'
refused "$q" 1024808c8440 'refused 17: a whole record of the file is wrong'
refused "$q" 1024888c8441 'refused 18: after the end mark, a bit not 0 or a further byte'
# of another house: n, LMAX, an arc that is not there, a higher first hop than the lowest, a reachable node that is called unreachable
for table in 1011 1025 10248910 1024888c8840 102400; do refused "$q" "$table" 'not of this house'; done
refuses 2 'No such file' "$work/q" "$work/nothing"
refuses 2 'No such file' "$work/nothing" "$work/p4"
refuses 2 'directory' "$work" "$work/p4"
refuses 2 'No such file' "$work/q" -o "$work/nothing/picture.svg"
refuses 2 'usage'
refuses 2 'usage' "$work/q" 1 2
for node in 0 4 17; do refuses 1 'refused 11: node or target outside 1 to n' "$work/q" "$node"; done
verdict 'a full disk is told' grep -q '^zaq: .*No space left' <("$zaq" draw "$work/q" 2>&1 > /dev/full)

closing_line
