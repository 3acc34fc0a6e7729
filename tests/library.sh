#!/usr/bin/env bash
# What a firmware links: the static library, or that of the target that ZAQ_TARGET names, defines the header's calls and no other global
# name, and needs memcpy and memset only. And the header compiles by itself, without a warning, as C99, C11 and C++17, by the C compiler and
# by the toolchain's clang for every target.
. "$(dirname "$0")/verdict.sh"
. tools/lib_for/module.sh
. tools/lib_for/target.sh

mkdir -p "$built/library"
library=$(bash tools/library.sh)
verdict 'the static library is built' test -n "$library"

read_names() { # read_names FLAG..: the library's names, by the nm that goes with the C compiler
    "$("$CC" -print-prog-name=nm)" "$@" "$library"
}

# a symbol's line has its name last; a line of another kind names a member of the archive
only_names() { awk 'NF >= 2 { print $NF }' | sort -u; }

calls=$(calls_of_header | sort)
defined=$(read_names -g --defined-only | only_names)
needed=$(read_names -u | only_names)
verdict "the header has $(wc -w <<< "$calls") calls, not 15" test "$(wc -w <<< "$calls")" = 15
verdict "no call is declared twice" test "$(uniq -d <<< "$calls")" = ''
for name in $calls; do
    verdict "the library does not define $name" grep -qx "$name" <<< "$defined"
done
verdict "the library defines more than the header's calls: $(comm -13 <(echo "$calls") <(echo "$defined") | xargs)" \
    test "$calls" = "$defined"
# a member of the archive may need what another one defines
verdict "the library needs more than memcpy and memset: $(comm -23 <(echo "$needed") <(echo "$defined") | xargs)" \
    test -z "$(comm -23 <(echo "$needed") <(echo "$defined") | grep -vxE 'memcpy|memset')"

# README.md's table has each library's bytes of code, as 10,687
code=$("$("$CC" -print-prog-name=size)" "$library" | awk 'NR == 2 { print $1 }' | sed -E 's/([0-9]{3})$/,\1/')
verdict "the library has $code bytes of code, and README.md says something else" grep -qF "| $library | $code |" README.md

alone() { # alone COMPILER..: a program that has nothing but the header; it hands sizeof values over as they are
    "$@" -Wall -Wextra -Wpedantic -Wconversion -Werror -fsyntax-only -Iinclude "$built/library/alone.c"
}
cat > "$built/library/alone.c" << 'PROGRAM'
#include "zaqfinell.h"
int main(void)
{
    const uint8_t net[] = {0x10, 0x10, 0x00}, steps[] = {0};
    uint8_t file[ZAQ_FILE_ROOM];
    uint32_t wrote = zaq_write_table(net, sizeof net, steps, sizeof steps, 1, file, sizeof file);
    return (int)zaq_refusal(zaq_read_entry(file, zaq_written(wrote), 1));
}
PROGRAM
cpp=$(command -v "$("$CC" -dumpmachine)-g++" || command -v c++ || command -v g++ || command -v clang++)
verdict 'the header as C99' alone "$CC" -std=c99
verdict 'the header as C11' alone "$CC" -std=c11
if [ -n "$cpp" ]; then
    verdict 'the header as C++17' alone "$cpp" -std=c++17 -x c++
else
    echo 'the header as C++17: not tried, no C++ compiler is found'
fi
for target in "$module_triple" $targets; do
    verdict "the header as C99, clang for $target" alone clang_for "$target" -std=c99
    verdict "the header as C11, clang for $target" alone clang_for "$target" -std=c11
    verdict "the header as C++17, clang for $target" alone clang_for "$target" -std=c++17 -x c++
done
verdict 'a line of C or shell is over 140 characters' \
    test -z "$(find include tests tools bench examples .ci \( -name '*.[ch]' -o -name '*.sh' -o -name run \) -exec awk 'length > 140' {} +)"

closing_line
