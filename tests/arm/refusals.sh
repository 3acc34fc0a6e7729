#!/usr/bin/env bash
# A toolchain that hands its module over in another way, or another module, gives a clear message and no library. In a copy of the tree the
# kit's rt is replaced by a script that hands a module to clang as each case says; lib_for.sh does the rest as ever. The first case is
# the toolchain as it is, and gives the library.
. "$(dirname "$0")/../verdict.sh"
. tools/lib_for/module.sh
. tools/lib_for/target.sh
target=armv7-linux-gnueabihf
original=$PWD/target/$target
if [ ! -f "$original/libzaqfinell.a" ]; then
    echo "$0: tools/lib_for.sh $target has not been run" >&2
    echo '0 passed, 1 failed'
    exit 1
fi
tree=$PWD/target/refusals
own_clang=$(kit_bin)/clang

# ---- the copy of the tree, and in it a kit whose rt is ours

rm -rf "$tree"
mkdir -p "$tree/target" "$tree/case" "$tree/crates/zaqfinell_c"
cp -r crates.txt include tools "$tree"
link_all_but bin "$(kit)" "$tree/kit"
link_all_but rt "$(kit)/bin" "$tree/kit/bin"
cat > "$tree/kit/bin/rt" << 'RT'
#!/usr/bin/env bash
# builds the library as the file `how` beside the module says, and proves nothing
set -eu
kit=$(cd "$(dirname "$0")/.." && pwd)
case ${1:-} in
doc) echo "$kit/START-HERE.md" && exit ;;
lib) ;;
*) exit 2 ;;
esac
archive=$PWD/out/libzaqfinell_c.a
toolchain=$kit/toolchain
cd ../../case
clang=$toolchain/bin/clang
usual=(-ffunction-sections -mllvm -trap-unreachable -Werror -fPIC -O3 --sysroot="$toolchain")
x86=(--target=x86_64-unknown-linux-gnu -march=x86-64)
hand_over() { "$clang" "${x86[@]}" "${usual[@]}" "$@" -c -x ir module.bc -o module.o; }
. ./how
mkdir -p "${archive%/*}"
rm -f "$archive"
"$toolchain/bin/llvm-ar" rcsD --format=gnu "$archive" module.o
RT
chmod +x "$tree/kit/bin/rt"

# ---- the cases

"$own_clang" "--target=$module_triple" -x ir "$original/module.bc" -Xclang -disable-llvm-passes -S -emit-llvm -o "$tree/case/whole.ll"

made() { # made HOW: lib_for.sh with a toolchain that hands the module of the case over in this way
    echo "$1" > "$tree/case/how"
    echo 'left of an earlier run' > "$tree/target/$target/libzaqfinell.a"
    PATH=$tree/kit/bin:$PATH bash "$tree/tools/lib_for.sh" "$target" > "$tree/said" 2> "$tree/complaint"
}

refused() { # refused WHAT WORDS HOW: status 1, these words, and nothing that could be taken for a library
    local status=0
    mkdir -p "$tree/target/$target"
    made "$3" || status=$?
    echo "$1: $(sed -n 's/.*\(no library: \)/\1/p' "$tree/complaint")"
    verdict "$1: exit status $status, not 1" test "$status" -eq 1
    verdict "$1: the message is '$(tail -n 1 "$tree/complaint")'" grep -qF -- "no library: $2" "$tree/complaint"
    verdict "$1: a library or a sum is left" test -z "$(find "$tree/target/$target" -maxdepth 1 -type f)"
}

module() { # module [SED-SCRIPT [TRIPLE]]: the case's module is the library's, altered so, for this triple
    sed -E "${1:-}" "$tree/case/whole.ll" > "$tree/case/module.ll"
    "$own_clang" "--target=${2:-$module_triple}" -Wno-override-module -x ir "$tree/case/module.ll" -Xclang -disable-llvm-passes \
        -c -emit-llvm -o "$tree/case/module.bc"
}

altered() { # altered WHAT WORDS SED-SCRIPT: a module altered so is refused
    module "$3"
    verdict "$1: nothing is altered" test -n "$(diff -q "$tree/case/whole.ll" "$tree/case/module.ll")"
    refused "$1" "$2" hand_over
}

module
mkdir -p "$tree/target/$target"
verdict 'the toolchain as it is gives a library' made hand_over
verdict 'its sum is that of the module' test "$(cut -d ' ' -f 1 "$tree/target/$target/module.sha256")" = \
    "$(sha256sum < "$tree/case/module.bc" | cut -d ' ' -f 1)"

refused 'no call of clang' 'the toolchain called its clang 0 times, not once' ': > module.o'
refused 'two calls of clang' 'the toolchain called its clang 2 times, not once' 'hand_over; hand_over'
refused 'a module as text' 'the toolchain handed its clang 0 modules (.bc), not one' '"$clang" "${x86[@]}" -c -x ir module.ll -o module.o'
refused 'two modules' 'the toolchain handed its clang 2 modules (.bc), not one' \
    'cp module.bc more.bc; "$clang" "${x86[@]}" -c -x ir module.bc -emit-llvm -x ir more.bc; cp module.bc module.o'
word='the toolchain calls its clang with a word that is not known:'
refused 'another triple of the call' "$word --target=x86_64-pc-linux-gnu" 'x86=(--target=x86_64-pc-linux-gnu); hand_over -w'
refused 'no triple of the call' "the toolchain did not call its clang for $module_triple" 'x86=(); hand_over -w'
refused 'a chip that is not known' "$word -march=x86-64-v3" 'hand_over -march=x86-64-v3'
refused 'instructions that are not known' "$word -mavx2" 'hand_over -mavx2'
refused 'a library that is not proved' 'the toolchain did not prove and build the library for x86-64 (exit status 1)' 'exit 1'
refused 'another library than the module gives' 'target/staticlib/libzaqfinell.a, which was proved, is not what the module gives' \
    'hand_over; echo more >> module.o'

refused 'a module that is none' 'the module cannot be read' 'cp module.o keep; echo none > module.bc; hand_over || mv keep module.o'
module '' x86_64-unknown-linux-gnux32
refused 'another data layout' 'the module cannot be read, or its triple or data layout is not that of' 'hand_over -w'
verdict 'another data layout is named' grep -q 'of different data layouts' "$tree/complaint"
module '' x86_64-unknown-freebsd
refused 'another triple' 'the module cannot be read, or its triple or data layout is not that of' 'hand_over -w'
verdict 'another triple is named' grep -q 'of different target triples' "$tree/complaint"

unknown='the module has what nobody has looked at for other chips: line'
inside() { echo "/^define .*@$1\\(/{n;a\\  $2
}"; } # inside CALL INSTRUCTION: the sed script that puts it first
altered 'inline assembly' "$unknown" "$(inside zaq_run 'call void asm sideeffect "nop", ""()')"
verdict 'inline assembly is named' grep -q 'the word asm$' "$tree/complaint"
altered 'assembly of the module' "$unknown" '/^target triple/a\module asm "nop"'
altered 'a variable' "$unknown" '/^target triple/a\@kept = internal global i32 0'
altered 'an instruction that is not known' "$unknown" "$(inside zaq_check_network '%frozen = freeze i64 %a1')"
altered 'an attribute of functions' "$unknown" 's/^(attributes #0 = \{ nounwind)/\1 noredzone/'
altered 'an attribute in quotes' "$unknown" 's/^(attributes #0 = \{ nounwind)/\1 "target-features"="+avx2"/'
altered 'an attribute of a parameter' "$unknown" 's/@zaq_check_network\(ptr noundef/& nonnull/'
altered 'a function of another library' "$unknown" "$(inside zaq_run 'call void @abort()')
/^attributes #0/i\\declare void @abort()"

types='the calls of the module (>) are not those that the header declares (<)'
altered 'a call less' "$types" 's/^define noundef i32 @zaq_route\(/define noundef i32 @zaq_way(/'
altered 'a call more' "$types" 's/^define internal (noundef i32 @"call::values")/define \1/'
altered 'a call that counts on bits above a short number' "$types" 's/@zaq_check_arcs\(i8 noundef/& zeroext/'
altered 'a module that needs memmove' 'it needs more than memcpy and memset' \
    "$(inside zaq_read_table 'call void @llvm.memmove.p0.p0.i64(ptr %a2, ptr %a0, i64 %a1, i1 false)')"
module
sed -i 's/uint64_t \([a-z]*_len\)/uint32_t \1/g' "$tree/include/zaqfinell.h"
refused 'a header whose lengths have 32 bits' "$types" hand_over

closing_line
