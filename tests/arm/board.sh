#!/usr/bin/env bash
# The library for a chip without an operating system on such a chip, emulated: a Cortex-M4 on the board mps2-an386. The program has no C
# library: its memcpy and memset are those of tests/arm/board. It is compiled by the line that README.md gives, and runs the quick outside
# tests, those that need no process, file or page of memory.
# usage: board.sh    ZAQ_LIBRARY=file.a: another library
set -eu
cd "$(dirname "$0")/../.."
target=thumbv7em-none-eabihf
library=$(ZAQ_TARGET=$target bash tools/library.sh)
out=target/$target/board
mkdir -p "$out"

tests=()
for file in tests/outside/*.c; do
    case ${file##*/} in main.c | print.c | killed.c | seen.c | words.c) ;; *) tests+=("$file") ;; esac
done
read -ra line <<< "$(grep '^arm-none-eabi-gcc .* board\.ld start\.c firmware\.c ' README.md)"
[ ${#line[@]} -gt 0 ] || { echo "$0: README.md has no line for arm-none-eabi-gcc" >&2 && exit 2; }
words=()
for word in "${line[@]}"; do
    case $word in
    board.ld | start.c) words+=("tests/arm/board/$word") ;;
    firmware.c) words+=(tests/arm/board/main.c tests/arm/board/memory.c "${tests[@]}") ;;
    firmware.elf) words+=("$out/outside.elf") ;;
    "target/$target/libzaqfinell.a") words+=("$library") ;;
    *) words+=("$word") ;;
    esac
done
# without the last word gcc would make calls of memcpy out of the loop that is memcpy
"${words[@]}" -Wall -Wextra -Wpedantic -Werror -Wl,--fatal-warnings -O2 -fno-tree-loop-distribute-patterns
exec timeout 300 qemu-system-arm -M mps2-an386 -display none -serial null -monitor none -semihosting-config enable=on,target=native \
    -kernel "$out/outside.elf" < /dev/null
