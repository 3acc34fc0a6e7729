#!/usr/bin/env bash
# The libraries for ARM, made by tools/lib_for.sh and tried: for each target a planted mistake that must be noticed, the library's names and
# the header, all outside tests, the examples, README.md's program and compile line, and the stack of each call; for the chip without an
# operating system an emulated board; and toolchains that hand their module over in another way. Some minutes; not part of the gate.
# Programs for 32 bits are emulated, and those for 64 bits too where the machine is not aarch64.
# usage: run.sh    what is missing is told and counts as failed
. "$(dirname "$0")/../verdict.sh"
. tools/lib_for/module.sh
. tools/lib_for/target.sh
began=$SECONDS

packages=()
need() { command -v "$1" > /dev/null || packages+=("$2"); } # need COMMAND PACKAGE: the Debian package that has it
if [ "$(uname -m)" = aarch64 ]; then
    need aarch64-linux-gnu-gcc gcc
    need aarch64-linux-gnu-g++ g++
else
    need aarch64-linux-gnu-gcc gcc-aarch64-linux-gnu
    need aarch64-linux-gnu-g++ g++-aarch64-linux-gnu
fi
need arm-linux-gnueabihf-gcc gcc-arm-linux-gnueabihf
need arm-linux-gnueabihf-g++ g++-arm-linux-gnueabihf
need arm-none-eabi-gcc gcc-arm-none-eabi
# its headers; nothing of it is linked
echo '#include <string.h>' | arm-none-eabi-gcc -E - > /dev/null 2>&1 || packages+=(libnewlib-arm-none-eabi)
emulator arm > /dev/null || packages+=(qemu-user)
need qemu-system-arm qemu-system-arm
if [ ${#packages[@]} -gt 0 ]; then
    echo "$0: NOT RUN, something is missing: apt-get install ${packages[*]}" >&2
    echo "0 passed, ${#packages[@]} failed"
    exit 1
fi

try() { # try TARGET COMMAND..: a script that ends with status 0, for this target
    local target=$1
    shift
    echo "== $target: $*"
    verdict "$target: $* failed" env -u CC ZAQ_TARGET="$target" "$@"
}

# by_the_readme TARGET: README.md's line for it compiles README.md's program, as tests/readme.sh took it out, and that says what it should
by_the_readme() {
    local folder=target/$1/readme line compiler run=()
    line=$(grep -E "^[a-z0-9-]+-gcc .* target/$1/libzaqfinell\.a -o program$" README.md) || return 1
    echo "$line"
    compiler=${line%% *}
    line=${line/ program.c / $folder/program.c }
    ${line% program} "$folder/by_line" || return 1
    if [ "$compiler" != "$(uname -m)-linux-gnu-gcc" ]; then run=("$(emulator "${compiler%%-*}")" -L "/usr/${compiler%-gcc}"); fi
    [ "$("${run[@]}" "$folder/by_line")" = 'distance 1 by 2' ]
}

stack() { # stack TARGET: of every call, none over what is wanted; the table is left in target/TARGET/stack.txt
    env -u CC ZAQ_TARGET="$1" bash bench/run.sh stack > "target/$1/stack.txt" || return 1
    ! grep OVER "target/$1/stack.txt" && [ "$(grep -c '^zaq_' "target/$1/stack.txt")" = "$(calls_of_header | wc -l)" ]
}

for target in $targets; do
    try "$target" bash tools/lib_for.sh "$target"
    verdict "$target: the sum is not that of the module" test "$(cd "target/$target" && sha256sum -c module.sha256)" = 'module.bc: OK'
    try "$target" bash tests/arm/planted.sh "$target"
    try "$target" bash tests/outside.sh
    try "$target" bash tests/examples.sh
    try "$target" bash tests/readme.sh
    try "$target" bash tests/tool.sh
    if [ "$target" = thumbv7em-none-eabihf ]; then
        try "$target" env CC=arm-none-eabi-gcc bash tests/library.sh
        try "$target" bash tests/arm/board.sh
    else
        try "$target" bash tests/library.sh
        verdict "$target: README.md's line" by_the_readme "$target"
    fi
    verdict "$target: the stack" stack "$target"
done
sums=$(for target in $targets; do cat "target/$target/module.sha256"; done)
verdict 'the libraries are made from different modules' test "$(sort -u <<< "$sums" | wc -l)" = 1
echo '== toolchains that hand their module over in another way'
verdict 'toolchains that hand their module over in another way' bash tests/arm/refusals.sh

echo "== bytes of code, and of stack for each call; $((SECONDS - began)) s"
size=$(arm-linux-gnueabihf-gcc -print-prog-name=size)
{
    echo "call $targets"
    for target in $targets; do "$size" "target/$target/libzaqfinell.a" | awk 'NR == 2 { print "code " $1 }'; done
    for target in $targets; do grep '^zaq_' "target/$target/stack.txt"; done
} | awk 'NR == 1 { print; next } !($1 in row) { order[++rows] = $1 } { row[$1] = row[$1] " " $2 }
    END { for (k = 1; k <= rows; k++) print order[k] row[order[k]] }' | sed 's/ / | /g; s/.*/| & |/'

closing_line
