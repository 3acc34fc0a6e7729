# Files in and out: what is written stands whole or not at all, and nothing that fails is silent. Sourced by tests/tool.sh.

fails() { # fails WORDS: the last call, whose output went elsewhere, failed with these words and left no temporary file
    verdict "status $status, not 2, where '$1' is wanted" test "$status" = 2
    verdict "'$(cat "$work/err")' is said, not '$1'" grep -qF -- "$1" "$work/err"
    verdict "a message without 'zaq: '" only_messages
    verdict "a temporary file is left" no_leftovers "$work"
}

standard_output() {
    local command
    full_text > "$work/full.txt"
    for command in 'check examples/house.txt' 'check --json examples/house.txt' 'routes examples/house.txt' "routes $work/full.txt" \
        'run examples/house.txt' 'run examples/house.txt --every 9' "show $work/p4" 'pack examples/house.txt -o -' "unpack $work/q" \
        "write $work/q 1 -o -" "draw $work/q" 'help' '--version'; do
        status=0
        "${zaq[@]}" $command > /dev/full 2> "$work/err" || status=$?
        fails 'zaq: standard output: No space left on device'
    done
    status=0
    "${zaq[@]}" check examples/house.txt 2> "$work/err" >&- || status=$?
    fails 'zaq: standard output: Bad file descriptor'
    # a file opened while standard output is closed must not get what was meant for it
    status=0
    "${zaq[@]}" pack examples/house.txt -o "$work/net" 2> "$work/err" >&- || status=$?
    verdict 'with standard output closed, a file can be written' test "$status$(cat "$work/err")" = 0
    verdict 'with standard output closed, the file is right' cmp -s "$work/net" <("${zaq[@]}" pack examples/house.txt -o -)
    status=0
    "${zaq[@]}" check "$work/nothing" 2>&- || status=$?
    verdict "with standard error closed, the status is $status, not 2" test "$status" = 2
    { sleep 0.2; "${zaq[@]}" routes examples/house.txt 2> "$work/err"; echo $? > "$work/status"; } | :
    status=$(cat "$work/status")
    fails 'zaq: standard output: Broken pipe'
}

standard_input() {
    status=0
    "${zaq[@]}" check - 2> "$work/err" > "$work/out" <&- || status=$?
    fails 'zaq: standard input: Bad file descriptor'
    bad 2 'standard input (-) can be read only once' run - - < "$work/two"
    bad 2 'standard input (-) can be read only once' show - --house - < "$work/two"
    bad 1 "standard input: refused 1: network bytes under 3" check --net - < <(printf 'ab')
}

unreadable() {
    local command size
    for command in 'check' 'routes' 'run' "run $work/two" 'unpack' 'show' "show $work/p4 --house" "draw $work/q"; do
        bad 2 "$work: Is a directory" $command "$work"
        bad 2 "$work/nothing: No such file or directory" $command "$work/nothing"
        bad 2 "'': No such file or directory" $command ''
    done 2>&1
    bad 2 "$work: Is a directory" pack "$work" -o -
    bad 2 "$work/p4/x: Not a directory" check "$work/p4/x"
    head -c 1048577 /dev/zero | tr '\0' ' ' > "$work/long"
    bad 2 "$work/long: too long: over 1048576 bytes" check "$work/long"
    # of a table file of any length, the library says what is wrong: version 2; n is 3, so target 16 is over n; bytes after the end mark
    bad 1 "$work/long: refused 15: table file version not 1" show "$work/long"
    bad 1 '/dev/zero: refused 15: table file version not 1' show /dev/zero
    for size in 28 4095 4096 4097 70000; do
        { bytes 1024; head -c "$((size - 2))" /dev/zero | tr '\0' '\377'; } > "$work/long"
        bad 1 "$work/long: refused 17: a whole record of the file is wrong" show "$work/long"
        { cat "$work/p4"; head -c "$((size - 6))" /dev/zero; } > "$work/long"
        bad 1 "$work/long: refused 18: after the end mark, a bit not 0 or a further byte" show "$work/long"
        bad 1 "$work/long: refused 18: after the end mark, a bit not 0 or a further byte" draw "$work/q" "$work/long"
    done
    # a name that would write to the terminal, or begin a line of its own
    bad 2 "$work/a\\x0azaq\\x1b\\xff: No such file or directory" check "$work/a"$'\nzaq\x1b\xff'
}

written() {
    local old=$work/old
    rm -rf "$old"
    mkdir "$old"
    printf 'as it was' > "$old/file"
    chmod 640 "$old/file"
    ask write "$work/q" 1 -o "$old/file"
    verdict 'an old file is replaced' cmp -s "$old/file" "$work/p4"
    verdict 'an old file keeps its rights' test "$(stat -c %a "$old/file")" = 640
    (umask 027 && "${zaq[@]}" write "$work/q" 1 -o "$old/new")
    verdict 'a new file has the rights of the umask' test "$(stat -c %a "$old/new")" = 640
    ln -s file "$old/link"
    ask write "$work/q" 2 -o "$old/link"
    verdict 'a link stays a link' test -L "$old/link"
    verdict "a link's file is written" cmp -s "$old/file" "$work/p10"
    ln -s nowhere "$old/loose"
    ask pack examples/house.txt -o "$old/loose"
    fails "$old/loose: No such file or directory"
    mkfifo "$old/pipe"
    timeout 20 cat "$old/pipe" > "$work/from_pipe" &
    ask write "$work/q" 1 -o "$old/pipe"
    wait $!
    verdict 'a pipe stays a pipe' test -p "$old/pipe"
    verdict 'what is written comes out of the pipe' cmp -s "$work/from_pipe" "$work/p4"
    verdict "only what was asked for is there: $(ls -A "$old" | xargs)" test "$(ls -A "$old" | sort | xargs)" = 'file link loose new pipe'
}

full_device() { # a device that is always full; as root one of our own, since a wrong program could replace the machine's
    rm -f "$work/full"
    if [ "$(id -u)" != 0 ]; then
        echo /dev/full
    elif mknod "$work/full" c 1 7 2> /dev/null && (echo > "$work/full") 2>&1 | grep -q 'No space left'; then
        echo "$work/full"
    fi
}

in_place() { # what is open already is written to where it stands: nothing before or after is lost
    local old=$work/old name
    rm -rf "$old"
    mkdir "$old"
    for name in /dev/stdout "$old/log" /dev/fd/1 -; do
        printf 'before ' > "$old/log"
        { "${zaq[@]}" write "$work/q" 1 -o "$name" && printf ' after'; } 2> "$work/err" >> "$old/log"
        verdict "-o $name, appended: $(cat "$work/err")" cmp -s "$old/log" <(printf 'before '; cat "$work/p4"; printf ' after')
        { printf 'before ' && "${zaq[@]}" write "$work/q" 1 -o "$name" && printf ' after'; } 2> "$work/err" > "$old/log"
        verdict "-o $name, in the middle: $(cat "$work/err")" cmp -s "$old/log" <(printf 'before '; cat "$work/p4"; printf ' after')
    done
    printf 'before ' > "$old/log"
    "${zaq[@]}" write "$work/q" 1 -o /dev/stderr 2>> "$old/log" > "$work/out"
    verdict '-o /dev/stderr, appended' cmp -s "$old/log" <(printf 'before '; cat "$work/p4")
    printf 'before ' > "$old/log"
    "${zaq[@]}" write "$work/q" 1 -o /dev/fd/12 12>> "$old/log" > "$work/out"
    verdict '-o /dev/fd/12, appended' cmp -s "$old/log" <(printf 'before '; cat "$work/p4")
    # one that is open for reading only is replaced as any other
    printf 'as it was' > "$old/log"
    "${zaq[@]}" write "$work/q" 1 -o "$old/log" 3< "$old/log"
    verdict 'a file that is open for reading' cmp -s "$old/log" "$work/p4"
    verdict "only the log is there: $(ls -A "$old" | xargs)" test "$(ls -A "$old")" = log
}

own_input() { # own_input INPUT ARGUMENT..: the output is INPUT, which the call reads: refused, and INPUT stays as it was
    local input=$1
    shift
    cp "$input" "$work/copy"
    ask "$@"
    fails ': this is also an input, and stays as it was; the output needs another name'
    verdict "zaq $*: $input is not as it was" cmp -s "$input" "$work/copy"
}

inputs() {
    local old=$work/old name
    rm -rf "$old"
    mkdir "$old"
    cp examples/house.txt "$old/house.txt"
    cp "$work/q" "$work/p4" "$work/steps" "$work/two" "$old"
    ln -s house.txt "$old/link"
    ln "$old/house.txt" "$old/hard"
    for name in house.txt link hard ../old/house.txt; do own_input "$old/house.txt" pack "$old/house.txt" -o "$old/$name"; done
    own_input "$old/q" unpack "$old/q" -o "$old/q"
    own_input "$old/q" write "$old/q" 1 -o "$old/q"
    own_input "$old/two" write "$old/two" "$old/steps" 1 -o "$old/two"
    own_input "$old/steps" write "$old/two" "$old/steps" 1 -o "$old/steps"
    own_input "$old/q" draw "$old/q" -o "$old/q"
    own_input "$old/q" draw "$old/q" "$old/p4" -o "$old/q"
    own_input "$old/p4" draw "$old/q" "$old/p4" -o "$old/p4"
    own_input "$old/q" unpack - -o "$old/q" < "$old/q"
    for name in - /dev/stdout; do
        status=0
        "${zaq[@]}" unpack "$old/q" -o "$name" 2> "$work/err" >> "$old/q" || status=$?
        fails ': this is also an input, and stays as it was; the output needs another name'
        verdict "-o $name, appended to its input, which is not as it was" cmp -s "$old/q" "$work/q"
    done
    # a word that is a node is no file; and what is no file cannot be destroyed
    cp "$work/p10" "$old/1"
    (cd "$old" && "${zaq[@]}" write q 1 -o 1)
    verdict 'a file whose name is that of the node' cmp -s "$old/1" "$work/p4"
    (cd "$old" && "${zaq[@]}" draw q 1 -o 1)
    verdict 'a picture whose name is that of the node' grep -q '<svg' "$old/1"
    bad 1 'refused 12: file wanted of a node not started' write "$work/q" /dev/null 1 -o /dev/null
    verdict "only what was put there is there: $(ls -A "$old" | xargs)" \
        test "$(ls -A "$old" | sort | xargs)" = '1 hard house.txt link p4 q steps two'
}

not_written() {
    local old=$work/old full command
    full=$(full_device)
    [ -n "$full" ] || echo 'a full device for -o: not tried, none can be made here'
    rm -rf "$old"
    mkdir "$old"
    printf 'as it was' > "$old/file"
    for command in "write $work/q 1" 'pack examples/house.txt' "unpack $work/q" "draw $work/q"; do
        ask $command -o "$old"
        fails "$old: Is a directory"
        ask $command -o "$old/no/file"
        fails "$old/no/file: No such file or directory"
        ask $command -o "$old/file/file"
        fails "$old/file/file: Not a directory"
        ask $command -o ''
        fails "'': No such file or directory"
        if [ -n "$full" ]; then
            ask $command -o "$full"
            fails "$full: No space left on device"
            verdict 'a device is still a device' test -c "$full"
        fi
        # a limit of no bytes stands for a disk that is full; messages go through a pipe, which has no such limit
        (
            ulimit -f 0
            "${zaq[@]}" $command -o "$old/file" 2>&1
            echo "status $?"
        ) | cat > "$work/said"
        status=$(sed -n 's/^status //p' "$work/said")
        grep -v '^status ' "$work/said" > "$work/err"
        fails "$old/file: File too large"
        verdict 'the old file is as it was' test "$(cat "$old/file")" = 'as it was'
    done
    bad 1 'found the end of the line' pack <(printf 'lmax') -o "$old/file"
    bad 1 'refused 12: file wanted of a node not started' write "$work/q" /dev/null 1 -o "$old/file"
    verdict 'the old file is as it was after a refusal' test "$(cat "$old/file")" = 'as it was'
    verdict "only the old file is there: $(ls -A "$old" | xargs)" test "$(ls -A "$old")" = file
    (cd "$old" && "${zaq[@]}" write "$OLDPWD/$work/q" 1 -o plain)
    verdict 'a name without a folder' cmp -s "$old/plain" "$work/p4"
}

test_files() {
    standard_output
    standard_input
    unreadable
    written
    in_place
    inputs
    not_written
}
