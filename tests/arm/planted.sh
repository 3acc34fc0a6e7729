#!/usr/bin/env bash
# Shows that a wrong library for a target is noticed: the module's text that target/TARGET/libzaqfinell.a is made from is altered in one
# constant and compiled in the same way, and with that library the outside tests must fail; so must those on the board, for the target that
# has one. Another mistake for each target.
# usage: planted.sh TARGET
target=${1:-}
. "$(dirname "$0")/../verdict.sh"
. tools/lib_for/module.sh
. tools/lib_for/target.sh
no_library() {
    echo "$0: $target: $*" >&2
    exit 1
}
if ! is_target "$target" || [ ! -f "target/$target/module.ll" ]; then
    echo "usage: $0 TARGET    TARGET is one of $targets, and tools/lib_for.sh has made its library" >&2
    exit 2
fi
text=target/$target/module.ll
work=target/$target/planted
rm -rf "$work"
mkdir -p "$work"

# the function, the constant in it that is altered, and what the library then does
case $target in
aarch64-*) inside=network_list::before_arcs old='icmp ult i64 240,' new='icmp ult i64 241,' does='takes a list of 241 arcs' ;;
armv7-*) inside=table_records::next old='\(add i64 %r[0-9]*\), 13$' new='\1, 12' does='reads 12 bits for a record' ;;
thumbv7em-*) inside=call_ask::route old='store i32 13,' new='store i32 12,' does='refuses a room too short for a route with 12' ;;
esac
sed "/^define .*@\"$inside\"/,/^}/s/$old/$new/" "$text" > "$work/module.ll"
verdict "$(diff "$text" "$work/module.ll" | grep -c '^>') lines of $inside are altered, not one" \
    test "$(diff "$text" "$work/module.ll" | grep -c '^>')" = 1

mapfile -t flags < "target/$target/module.flags"
compile_library "$target" "$work/module.ll" "$work/libzaqfinell.a"
verdict 'it is compiled' test -s "$work/libzaqfinell.a"

notices() { # notices COMMAND..: it ends with status 1, having named a check that failed
    local status=0
    ZAQ_TARGET=$target ZAQ_LIBRARY=$work/libzaqfinell.a "$@" > "$work/log" 2>&1 || status=$?
    echo "$target, a library that $does, $*: $(sed -n 's/^FAILED: /noticed: /p' "$work/log" | head -n 1)"
    [ "$status" -eq 1 ] && grep -q '^FAILED: ' "$work/log"
}
verdict 'the outside tests do not notice it' notices env -u CC bash tests/outside.sh quick
case $target in *-none-*) verdict 'the tests on the board do not notice it' notices bash tests/arm/board.sh ;; esac

closing_line
