# Words on the command line: what is wrong is told, and what is right does what it says. Sourced by tests/tool.sh.

options() {
    bad 2 'a command is missing; zaq help lists them'
    bad 2 "there is no command 'chek'; zaq help lists them" chek
    bad 2 "there is no command '--foo'; zaq help lists them" --foo
    bad 2 'there is no command '\''\x1b[31m'\' $'\x1b[31m'
    bad 2 'check: unknown option --foo' check --foo "$work/q"
    bad 2 'check: unknown option -1' check "$work/q" -1
    bad 2 'check: unknown option --json=1' check "$work/q" --json=1
    bad 2 'pack takes no --json' pack "$work/q" --json -o -
    bad 2 'check takes no -o' check "$work/q" -o "$work/x"
    bad 2 'routes takes no --every' routes "$work/q" --every 3
    bad 2 'run takes no --house' run "$work/q" --house "$work/q"
    bad 2 'unpack takes no --net' unpack "$work/q" --net
    bad 2 '-o is given twice' pack "$work/q" -o a -o b
    bad 2 '--json is given twice' check --json --json "$work/q"
    bad 2 '--net is given twice' check --net "$work/q" --net
    bad 2 '--every is given twice' run "$work/q" --every 3 --every 3
    bad 2 '--house is given twice' show --house a --house a "$work/p4"
    bad 2 "-o needs a file's name after it" pack "$work/q" -o
    bad 2 "-o needs a file's name after it, not the option --json" pack "$work/q" -o --json
    bad 2 '--every needs a number of steps after it' run "$work/q" --every
    bad 2 "--house needs a house's file after it" show "$work/p4" --house
    for every in 0 x 3x '' 1.5; do
        bad 2 "--every needs a number of steps from 1 on, not '$every'" run "$work/two" --every "$every"
    done
    bad 2 'show: --net says how the file of --house is read, and there is no --house' show --net "$work/p4"
    bad 2 'pack: -o and a file'\''s name are missing (- is standard output); usage: zaq pack HOUSE -o NET' pack examples/house.txt
    bad 2 'write: -o and a file'\''s name are missing' write "$work/q" 1
}

words() {
    local command
    for command in pack unpack check routes run write show draw; do
        bad 2 "$command: a word is missing; usage: zaq $command " $command
    done
    bad 2 'write: a word is missing' write "$work/q" -o "$work/x"
    bad 2 "check: one word too many, 'b'; usage: zaq check HOUSE|NET" check a b
    bad 2 "pack: one word too many, 'b'" pack a b -o c
    bad 2 "unpack: one word too many, 'b'" unpack a b
    bad 2 "routes: one word too many, '3'" routes "$work/q" 1 2 3
    bad 2 "run: one word too many, 'c'" run a b c
    bad 2 "write: one word too many, '2'" write "$work/q" a 1 2 -o "$work/x"
    bad 2 "draw: one word too many, '2'" draw "$work/q" 1 2
    bad 2 "help: one word too many, 'pack'" help pack pack
    bad 2 "--version: one word too many, 'x'" --version x
    bad 2 "there is no command 'chek'" help chek
    for node in x 1x '' 1.0 0x1 +1 ' 1'; do
        bad 2 "a node is a number, not '$node'" routes "$work/q" "$node"
        bad 2 "a node is a number, not '$node'" write "$work/q" "$node" -o "$work/x"
    done
    verdict 'nothing was written' test ! -e "$work/x"
}

right_words() {
    local command version
    version=$(sed -nE 's/^#define ZAQ_VERSION "(.*)"$/\1/p' include/zaqfinell.h)
    verdict 'the header has a version' test -n "$version"
    says "zaq $version" --version
    for command in pack unpack check routes run write show draw help; do
        ask help "$command"
        verdict "zaq help $command" grep -q "^usage: zaq $command" "$work/out"
        cp "$work/out" "$work/help"
        ask "$command" --help
        verdict "zaq $command --help is zaq help $command" cmp -s "$work/out" "$work/help"
        verdict "zaq $command --help: status $status" test "$status" = 0
    done
    ask help
    verdict 'zaq help lists every command' test "$(grep -c '^    zaq ' "$work/out")" = 10
    cp "$work/out" "$work/help"
    ask --help
    verdict 'zaq --help is zaq help' cmp -s "$work/out" "$work/help"
    # the example that zaq help house shows is a house: three devices, a link both ways and one way
    ask help house
    sed -n 's/^    //p' "$work/out" | grep -vE '^ ' > "$work/example.txt"
    says "$work/example.txt is accepted: 3 devices, 3 arcs, LMAX 9; at most 96 steps of a run are taken" check "$work/example.txt"
    # options may stand anywhere; after -- every word is a word
    cp "$work/q" "$work/-x"
    cp "$work/q" "$work/--json"
    ask routes --json "$work/q" 1
    cp "$work/out" "$work/help"
    ask routes "$work/q" 1 --json
    verdict 'an option may come last' cmp -s "$work/out" "$work/help"
    local of_q='is accepted: 3 devices, 4 arcs, LMAX 4; at most 67 steps of a run are taken'
    verdict 'after -- a word is no option' test "$(cd "$work" && "${zaq[@]}" check -- -x)" = "-x $of_q"
    verdict 'after -- not even a known one' test "$(cd "$work" && "${zaq[@]}" check -- --json)" = "--json $of_q"
    says "standard input $of_q" check -- - < "$work/q"
    ask help
    verdict 'zaq help says what - is after --' grep -qF 'After -- no word is an option, but - is still standard input.' "$work/out"
    verdict 'zaq.1 says what - is after --' grep -qF 'no word after it is an option, but' tools/zaq/zaq.1
    # each word that zaq help house explains, at the beginning of a line
    ask help house
    for command in $(sed -nE 's/^([a-z]+)  .*/\1/p' "$work/out"); do
        verdict "zaq.1 does not name the word $command" grep -qE "^\.BI? $command\b" tools/zaq/zaq.1
        verdict "docs/HOUSE.md does not name the word $command" grep -qF "| \`$command " docs/HOUSE.md
    done
}

test_faults() {
    options
    words
    right_words
}
