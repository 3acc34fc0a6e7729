#!/usr/bin/env bash
# The program zaq, command by command, and every fault that can be made: tests/tool_*.sh, a topic each. Where programs are not emulated, the
# whole once more with the compiler's sanitizers.
# ZAQ names another program to test than the one that is built here, by a path from the repository's root.
. "$(dirname "$0")/verdict.sh"

work=$built/tool_test
topics='house commands files faults json random draw'
for topic in $topics; do . "tests/tool_$topic.sh"; done

# document 01's network Q, its files P4 to P8, P10 and P11, and the network and steps of the run that docs/FORMATS.md works out
examples='q 124004011121022204
p4 1024888c8440
p5 1024888c847f
p6 1024888f
p7 1024888c84
p8 1024
p10 1124910c0900
p11 100100
two 1110010110
steps 0001101010'

ask() { # ask ARGUMENT..: runs zaq; $status, $work/out and $work/err have what came of it
    status=0
    "${zaq[@]}" "$@" > "$work/out" 2> "$work/err" || status=$?
}

says() { # says TEXT ARGUMENT..: prints exactly the text, without a message, and is done
    local text=$1
    shift
    ask "$@"
    verdict "zaq $*: status $status, not 0, or the message '$(cat "$work/err")'" test "$status$(cat "$work/err")" = 0
    verdict "zaq $* says something else: $(diff <(echo "$text") "$work/out")" cmp -s <(echo "$text") "$work/out"
}

only_messages() { # every line on standard error is a message, and there is one
    [ -s "$work/err" ] && ! grep -qv '^zaq: ' "$work/err"
}

bad() { # bad STATUS WORDS ARGUMENT..: ends with the status, prints nothing, and a message has the words
    local wanted=$1 words=$2
    shift 2
    ask "$@"
    verdict "zaq $*: status $status, not $wanted" test "$status" = "$wanted"
    verdict "zaq $* prints something" test ! -s "$work/out"
    verdict "zaq $* says '$(cat "$work/err")', not '$words'" grep -qF -- "$words" "$work/err"
    verdict "zaq $* says something without 'zaq: '" only_messages
}

digits() { # digits FILE: as two hexadecimal digits to a byte
    od -An -v -tx1 "$1" | tr -d ' \n'
}

no_leftovers() { # no_leftovers FOLDER: no temporary file is left there
    [ -z "$(find "$1" -name '.zaq-*')" ]
}

try_all() {
    local topic name digits began=$SECONDS
    rm -rf "$work"
    mkdir -p "$work"
    while read -r name digits; do bytes "$digits" > "$work/$name"; done <<< "$examples"
    for topic in $topics; do "test_$topic"; done
    echo "with $(basename "${zaq[0]}"): $((SECONDS - began)) s"
}

if [ -n "${ZAQ:-}" ]; then
    zaq=("$(realpath "$ZAQ")")
    verdict "there is no program $ZAQ" test -x "${zaq[0]}"
    try_all
    closing_line
    exit
fi

verdict 'zaq is built' bash tools/build.sh
zaq=("$PWD/$built/bin/zaq")
try_all
if [ "$emulated" = yes ]; then
    echo 'not once more with sanitizers: the programs are emulated here'
    closing_line
    exit
fi
mkdir -p "$built/tools"
verdict 'zaq compiles with sanitizers' "$CC" -std=c99 -g -fsanitize=address,undefined -fno-sanitize-recover -Iinclude tools/zaq/*.c \
    "$(bash tools/library.sh)" -lm -o "$built/tools/zaq_sanitized"
export ASAN_OPTIONS=detect_leaks=0 # a program that is about to end may leave its memory to the system
zaq=("$PWD/$built/tools/zaq_sanitized")
try_all
closing_line
