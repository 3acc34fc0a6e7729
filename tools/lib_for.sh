#!/usr/bin/env bash
# The library for an ARM chip, target/TARGET/libzaqfinell.a, and beside it the sum of the module that it is made from. The toolchain makes
# code for x86-64 only, but it does so through one LLVM module, and its own clang has every target. So the library is proved and built as
# ever, the module is kept, and it is compiled for the target. Whatever is not as expected gives a message and no library. Needs nothing
# but the toolchain.
# usage: lib_for.sh TARGET
set -eu -o pipefail
cd "$(dirname "$0")/.."
. tools/host.sh
. tools/lib_for/module.sh
. tools/lib_for/target.sh
target=${1:-}

no_library() {
    echo "lib_for.sh: $target: no library: $*" >&2
    exit 1
}

if [ $# -ne 1 ] || ! is_target "$target"; then
    echo "usage: lib_for.sh TARGET    (make lib TARGET=..)    TARGET is one of: $targets" >&2
    exit 2
fi
command -v rt > /dev/null || no_library 'rt, the Rattle toolchain, is not found'
[ -x "$(kit_bin)/clang" ] || no_library "the toolchain's clang is not found"
into=target/$target
work=$PWD/$into/made
library=$into/libzaqfinell.a
# nothing is left of an earlier library if this one comes to nothing
rm -rf "$work" "$library" "$into"/module.*
mkdir -p "$work"

take_module "$work"
read_module "$work"
check_module "$work"
text_for "$target" "$work/x86.ll" > "$work/module.ll"
compile_library "$target" "$work/module.ll" "$work/libzaqfinell.a"

install -m 644 "$work/module.bc" "$work/module.ll" "$into/"
printf '%s\n' "${flags[@]}" > "$into/module.flags"
(cd "$into" && sha256sum module.bc > module.sha256)
mv "$work/libzaqfinell.a" "$library"
rm -rf "$work"
echo "$library is made from the module of the library that was proved."
echo "The module's sum (sha256) is beside it, in $into/module.sha256:"
cat "$into/module.sha256"
