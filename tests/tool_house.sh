# House texts: what is taken, and what is told of a mistake. Sourced by tests/tool.sh. Places were counted by hand.

packs() { # packs DIGITS TEXT WHAT: the text, as printf writes it, is packed to these bytes
    printf "$2" > "$work/house.txt"
    ask pack "$work/house.txt" -o -
    verdict "$3: status $status, $(cat "$work/err")" test "$status" = 0
    verdict "$3: packed to $(digits "$work/out"), not $1" test "$(digits "$work/out")" = "$1"
}

mistaken() { # mistaken TEXT MESSAGE..: these are all the messages, each LINE:COLUMN: WHAT
    printf "$1" > "$work/house.txt"
    shift
    ask check "$work/house.txt"
    verdict "status $status of a wrong text, not 1: $*" test "$status" = 1
    verdict "a wrong text is told otherwise: $(diff <(printf "zaq: $work/house.txt:%s\n" "$@") "$work/err")" \
        cmp -s <(printf "zaq: $work/house.txt:%s\n" "$@") "$work/err"
}

good_texts() {
    # docs/FORMATS.md has the bytes of network Q
    local q=124004011121022204 name arcs='link 1 -> 2 length 1\nlink 2 -> 3 length 1\nlink 1 -> 3 length 2\nlink 3 -> 1 length 4'
    packs $q "lmax 4\ndevice 1\ndevice 2\ndevice 3\n$arcs\n" Q
    packs $q "device 3 c\n$arcs\nlmax 4\ndevice 1 a\ndevice 2" 'Q, its lines in another order, the last one without an end'
    packs $q "\xef\xbb\xbflmax 4 # LMAX\r\n\r\n# Q\r\ndevice 1 a # b\r\ndevice 2\r\ndevice 3\r\n${arcs//\\n/#\\r\\n}\r\n" \
        'Q with a byte order mark, CRLF and comments'
    packs $q '\t lmax\t4 \n device   1\t\n\tdevice 2 \t x \t\ndevice\t3\n  link\t1\t->  2 length\t1\t\nlink 2 -> 3   length 001\n'\
'link 1-> 3 length 2\nlink 3 ->1 length 4   # \xff\n' 'Q with tabs and blanks'
    # a two-way link is two arcs, first as written: arcs 2 1 3 and 1 2 3
    packs 11f002103013 'device 1\ndevice 2\nlmax 15\nlink 2 <-> 1 length 3\n' 'a two-way link'
    packs 11f002103013 'device 1\ndevice 2\nlmax 15\nlink 2<->1 length 3' 'a two-way link without blanks'
    packs 101000 'lmax 1\ndevice 1' 'one device'
    name=$(printf '%0255d' 0)
    packs 101000 "lmax 1\ndevice 1 $name\n" 'a name of 255 bytes'
    ask routes "$work/house.txt"
    verdict 'a name of 255 bytes is kept' test "$(cat "$work/out")" = "from 1 ($name): there is no other device"
    packs 10f000 "lmax 15\ndevice 1 $(printf 'ü%.0s' {1..127})\n" 'a name of 127 characters, 254 bytes'
    says "$work/house.txt is accepted: 1 device, 0 arcs, LMAX 15; at most 1 step of a run is taken" check "$work/house.txt"
}

mistakes_of_a_line() {
    local two='lmax 4\ndevice 1 a\ndevice 2 b\n'
    mistaken 'lmax 16\ndevice 1' '1:6: refused 3: LMAX outside 1 to 15 (LMAX 16), expected LMAX, a number from 1 to 15'
    mistaken 'lmax 0\ndevice 1' '1:6: refused 3: LMAX outside 1 to 15 (LMAX 0), expected LMAX, a number from 1 to 15'
    mistaken 'lmax\ndevice 1' '1:5: found the end of the line, expected LMAX, a number from 1 to 15'
    mistaken 'lmax 9x\ndevice 1' "1:6: found '9x', expected LMAX, a number from 1 to 15"
    mistaken 'lmax 9 9\ndevice 1' "1:8: found '9', expected the end of the line, or a comment after #"
    mistaken 'lmax 4\nlmax 4\ndevice 1' '2:6: found a second LMAX, after line 1, expected one'
    mistaken 'device 1' '1:9: found no lmax line, expected lmax and a number from 1 to 15'
    mistaken 'lmax 4\n' '1:7: found no device line, expected device 1 and its name'
    mistaken 'lmax 4\ndevice 17 a\n' "2:8: found '17', expected a device's number, from 1 to 16, and its name after a blank"
    mistaken 'lmax 4\ndevice 1a\n' "2:8: found '1a', expected a device's number, from 1 to 16, and its name after a blank"
    mistaken 'lmax 4\ndevice 1#a\n' "2:8: found '1#a', expected a device's number, from 1 to 16, and its name after a blank"
    mistaken 'lmax 4\ndevice -1\n' "2:8: found '-1', expected a device's number, from 1 to 16, and its name after a blank"
    mistaken 'lmax 4\ndevice 1\ndevice 2\ndevice 1\n' '4:8: found device 1 again, after line 2, expected each number once'
    mistaken 'lmax 4\ndevice 4\ndevice 1\n' '2:8: found device 4, but no device 3, expected numbers without a gap'
    mistaken 'lmax 4\ndevice 2\n' '2:8: found device 2, but no device 1, expected numbers without a gap'
    mistaken "${two}battery 2 b" "4:1: found 'battery', which is reserved for battery devices, expected lmax, device or link"
    mistaken "${two}\tLink 1 -> 2 length 1" "4:2: found 'Link', expected lmax, device or link, or a comment after #"
}

mistakes_of_a_link() {
    local two='lmax 4\ndevice 1 a\ndevice 2 b\n'
    mistaken "${two}link 1 > 2 length 1" "4:8: found '>', expected -> (one way) or <-> (both ways)"
    mistaken "${two}link 1 <- 2 length 1" "4:8: found '<-', expected -> (one way) or <-> (both ways)"
    mistaken "${two}link a -> 2 length 1" "4:6: found 'a', expected a device's number"
    mistaken "${two}link 1 -> " '4:11: found the end of the line, expected a device'\''s number'
    mistaken "${two}link 1 -> 2 # length 1" "4:13: found '#', expected the word length and a number"
    mistaken "${two}link 1 -> 2 length 1.5" "4:20: found '1.5', expected a length, a number from 1 to LMAX"
    mistaken "${two}link 1 -> 2 length 257" "4:20: found '257', expected a length, a number from 1 to LMAX"
    mistaken "${two}link 257 -> 2 length 1" "4:6: found '257', expected a device's number"
    # what the library refuses, with the arc
    mistaken "${two}link 3 -> 2 length 1" \
        '4:6: refused 5: a tail or head outside 1 to n (arc 1, from 3 to 2, length 1), expected the number of a device, 1 to 2'
    mistaken "${two}link 1 -> 0 length 1" \
        '4:11: refused 5: a tail or head outside 1 to n (arc 1, from 1 to 0, length 1), expected the number of a device, 1 to 2'
    mistaken "${two}link 2 <-> 2 length 1" \
        '4:12: refused 6: an arc from a node to itself (arc 1, from 2 to 2, length 1), expected two devices'
    mistaken "${two}link 1 <-> 2 length 5" \
        '4:21: refused 7: an arc of length 0 or over LMAX (arc 1, from 1 to 2, length 5), expected a length from 1 to 4'
    mistaken "${two}link 1 -> 2 length 0" \
        '4:20: refused 7: an arc of length 0 or over LMAX (arc 1, from 1 to 2, length 0), expected a length from 1 to 4'
    mistaken "${two}link 1 -> 2 length 1\nlink 2 <-> 1 length 3" \
        '5:6: refused 8: two arcs with the same tail and head (arc 3, from 1 to 2, length 3), expected each arc once'
}

mistakes_of_a_name() {
    local one='lmax 4\ndevice 1 '
    # columns are characters: the name begins in column 10, and ü is one of them
    mistaken "${one}\xff" '2:10: found the byte 0xff, which is not UTF-8, expected a name in UTF-8'
    mistaken "${one}ü\xc3" '2:11: found the byte 0xc3, which is not UTF-8, expected a name in UTF-8'
    mistaken "${one}üü\xed\xa0\x80" '2:12: found the byte 0xed, which is not UTF-8, expected a name in UTF-8'
    mistaken "${one}a\xc0\xafb" '2:11: found the byte 0xc0, which is not UTF-8, expected a name in UTF-8'
    mistaken "${one}\xf4\x90\x80\x80" '2:10: found the byte 0xf4, which is not UTF-8, expected a name in UTF-8'
    mistaken "${one}a\tb" '2:11: found the control character U+0009, expected a name without any'
    mistaken "${one}a\r\r\n" '2:11: found the control character U+000D, expected a name without any'
    mistaken "${one}a\x7f" '2:11: found the control character U+007F, expected a name without any'
    mistaken "${one}\xc2\x85" '2:10: found the control character U+0085, expected a name without any'
    mistaken "${one}$(printf '%0256d' 0)" '2:265: found a name of 256 bytes, expected at most 255'
    # another control byte makes a file network bytes, and the place where it stands is told too
    for byte in 00 01 1b; do
        mistaken "${one}ü\x$byte" ' refused 2: network version not 1, or the fourth field not 0' \
            "2:11: found the control byte 0x$byte, so the file is read as network bytes, expected none in a house text"
    done
    # pack takes texts only
    bad 1 "house.txt:2:11: found the control character U+001B, expected a name without any" pack "$work/house.txt" -o -
}

controlled() { # controlled PLACE BYTE TEXT: check and pack refuse the text for its control byte at this place
    mistaken "$3" ' refused 2: network version not 1, or the fourth field not 0' \
        "$1: found the control byte 0x$2, so the file is read as network bytes, expected none in a house text"
    bad 1 "house.txt:$1: found the control byte 0x$2, expected none in a house text" pack "$work/house.txt" -o -
    verdict "one mistake is told as $(wc -l < "$work/err")" test "$(wc -l < "$work/err")" = 1
}

mistakes_of_a_comment() {
    local byte rest='\nlmax 4\ndevice 1\ndevice 2\n'
    for byte in 00 01 0b 0c 1f; do
        controlled 1:4 $byte "# \xc3\xbc\x$byte # \x$byte$rest"
        # a byte order mark is no column
        controlled 1:4 $byte "\xef\xbb\xbf# a\x$byte$rest"
        controlled 2:8 $byte "\nlmax 4#\x$byte\ndevice 1\n"
        controlled 5:23 $byte "${rest}link 1 -> 2 length 1#\t\x$byte"
    done
    # what is no control byte of network bytes may stand there
    packs 101000 'lmax 1 # \t \r \x7f \xc2\x85\ndevice 1' 'a comment with other control characters'
    says "$work/house.txt is accepted: 1 device, 0 arcs, LMAX 1; at most 1 step of a run is taken" check "$work/house.txt"
    # the column of another mistake after a byte order mark
    mistaken '\xef\xbb\xbflmax 16\ndevice 1' '1:6: refused 3: LMAX outside 1 to 15 (LMAX 16), expected LMAX, a number from 1 to 15'
}

many_mistakes() {
    local text='lmax 99\n' k
    # one in every line: all are told in their order, whichever of the two passes has found them
    mistaken 'link 1 -> 1 length 1\nlmax 4\nlink 1 -> 2 length 9\ndevice 1\ndevice 2 \xff\nlink 1 to 2\nlink 2 -> 2 length 1\nfoo' \
        '1:11: refused 6: an arc from a node to itself (arc 1, from 1 to 1, length 1), expected two devices' \
        '3:20: refused 7: an arc of length 0 or over LMAX (from 1 to 2, length 9), expected a length from 1 to 4' \
        '5:10: found the byte 0xff, which is not UTF-8, expected a name in UTF-8' \
        "6:8: found 'to', expected -> (one way) or <-> (both ways)" \
        '7:11: refused 6: an arc from a node to itself (from 2 to 2, length 1), expected two devices' \
        "8:1: found 'foo', expected lmax, device or link, or a comment after #"
    for k in {2..13}; do text+="word$k\n"; done
    mistaken "$text" '1:6: refused 3: LMAX outside 1 to 15 (LMAX 99), expected LMAX, a number from 1 to 15' \
        '2:1: found '\''word2'\'', expected lmax, device or link, or a comment after #' \
        "3:1: found 'word3', expected lmax, device or link, or a comment after #" \
        "4:1: found 'word4', expected lmax, device or link, or a comment after #" \
        "5:1: found 'word5', expected lmax, device or link, or a comment after #" \
        "6:1: found 'word6', expected lmax, device or link, or a comment after #" \
        "7:1: found 'word7', expected lmax, device or link, or a comment after #" \
        "8:1: found 'word8', expected lmax, device or link, or a comment after #" \
        "9:1: found 'word9', expected lmax, device or link, or a comment after #" \
        "10:1: found 'word10', expected lmax, device or link, or a comment after #" \
        ' 14 mistakes; these are the first 10'
    # what stands in a text cannot write to the terminal
    mistaken 'lmax 4\ndevice 1\n\xc2\x9b31m\xff%%s' "3:1: found '\\xc2\\x9b31m\\xff%s', expected lmax, device or link, or a comment after #"
    # a full house has every arc: one more is one too many, and it is there already
    full_text > "$work/full.txt"
    says "$work/full.txt is accepted: 16 devices, 240 arcs, LMAX 15; at most 61696 steps of a run are taken" check "$work/full.txt"
    echo 'link 2 -> 1 length 1' >> "$work/full.txt"
    bad 1 'full.txt:138:6: refused 4: more than 240 arcs (arc 241, from 2 to 1, length 1), expected each arc once' check "$work/full.txt"
}

full_text() { # a house of sixteen with every arc, 120 links
    local i k
    echo 'lmax 15'
    for i in {1..16}; do echo "device $i"; done
    for i in {1..15}; do
        for ((k = i + 1; k <= 16; k++)); do echo "link $i <-> $k length $(((i * 5 + k * 2) % 15 + 1))"; done
    done
}

unpacked() {
    says 'lmax 4
device 1
device 2
device 3
link 1 -> 2 length 1
link 2 -> 3 length 1
link 1 -> 3 length 2
link 3 -> 1 length 4' unpack "$work/q"
    # arcs 1 2 3, 2 1 3: one line; 2 3 1, 3 2 2: two lengths; 1 3 1, 3 4 1, 3 1 1: not one after the other
    bytes 13f0070131031212120212312010 > "$work/ways"
    says 'lmax 15
device 1
device 2
device 3
device 4
link 1 <-> 2 length 3
link 2 -> 3 length 1
link 3 -> 2 length 2
link 1 -> 3 length 1
link 3 -> 4 length 1
link 3 -> 1 length 1' unpack "$work/ways"
    ask unpack "$work/ways" -o "$work/ways.txt"
    ask pack "$work/ways.txt" -o "$work/ways.again"
    verdict 'packed again, the bytes are the same' cmp -s "$work/ways" "$work/ways.again"
    bad 1 "$work/steps: refused 2: network version not 1, or the fourth field not 0" unpack "$work/steps"
    bad 1 'examples/house.txt: refused 2: network version not 1, or the fourth field not 0' unpack examples/house.txt
}

test_house() {
    good_texts
    mistakes_of_a_line
    mistakes_of_a_link
    mistakes_of_a_name
    mistakes_of_a_comment
    many_mistakes
    unpacked
}
