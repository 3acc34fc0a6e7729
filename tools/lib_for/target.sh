# Sourced after module.sh: the targets, and a module's text compiled for one of them.
targets='aarch64-linux-gnu armv7-linux-gnueabihf thumbv7em-none-eabihf'

is_target() { case " $targets " in *" $1 "*) [ -n "$1" ] ;; *) false ;; esac; }

# choose_target TARGET: leaves in `choices` what clang is told of the target, and in `drops` the attributes that mean nothing there
choose_target() {
    choices=(--target="$1")
    drops='target-cpu'
    case $1 in
    armv7-*)
        # some chips with hard floats have no NEON. LLVM cannot probe the stack on ARM of 32 bits
        choices+=(-mfpu=vfpv3-d16)
        drops='target-cpu|probe-stack|stack-probe-size'
        ;;
    thumbv7em-*)
        # memcpy and memset by these names; and nothing that a chip which is told to trap unaligned loads would trap
        choices+=(-meabi gnu -mno-unaligned-access)
        drops='target-cpu|probe-stack|stack-probe-size'
        ;;
    esac
}

# clang_for TARGET WORD..: the toolchain's clang for C and C++. It comes without C's headers: tools/lib_for/include has what ours asks for.
clang_for() {
    local target=$1
    shift
    "$(kit_bin)/clang" --target="$target" --no-default-config -nostdinc -Itools/lib_for/include -Iinclude "$@"
}

# text_for TARGET TEXT: the text of a module for x86-64, as one for the target: its triple and data layout are those of the target's clang
text_for() {
    local lines triple layout
    choose_target "$1"
    lines=$(clang_for "$1" -x c -S -emit-llvm /dev/null -o -) || no_library "the toolchain's clang does not know the target"
    triple=$(grep '^target triple = ' <<< "$lines") && layout=$(grep '^target datalayout = ' <<< "$lines") ||
        no_library "the toolchain's clang does not say the target's triple and data layout"
    sed -E -e "s/^target triple = .*/$triple/" -e "s/^target datalayout = .*/$layout/" -e "/^attributes /s/ \"($drops)\"=\"[^\"]*\"//g" "$2"
}

calls_of_header() { sed -nE 's/^uint32_t (zaq_[a-z_]+)\(.*/\1/p' include/zaqfinell.h; }

# types_in_c TARGET: each of the header's calls with the types that C hands over on the target, in the words of a module
types_in_c() {
    {
        echo '#include "zaqfinell.h"'
        calls_of_header | sed 's/.*/void (*const to_&)(void) = (void (*)(void))&;/'
    } | clang_for "$1" -std=c99 -x c -S -emit-llvm - -o - |
        sed -nE '/^declare /{ s/ (noundef|zeroext|dso_local)//g; s/^declare (.*\)).*/\1/; p; }' | sort
}

# types_in_module TEXT: the same of the functions that the module exports. Here `zeroext` is left in: a module that counts on it would be
# wrong where callers need not clear the bits above a short number, as on ARM of 64 bits.
types_in_module() {
    sed -nE '/^define /{ / internal /d; s/ (noundef|%a[0-9]+)//g; s/^define (.*\)).*/\1/; p; }' "$1" | sort
}

# drop_stack_mark OBJECT: compilers for chips without an operating system do not mark whether the stack is executable, and where one object
# of many is marked GNU's linker warns of the others
drop_stack_mark() {
    "$(kit_bin)/ld.lld" -r -T tools/lib_for/no_stack_mark.ld "$1" -o "$1.unmarked" && mv "$1.unmarked" "$1"
}

# compile_library TARGET TEXT LIBRARY: the archive, if the text exports just the header's calls and needs memcpy and memset only
compile_library() {
    local target=$1 text=$2 library=$3 object=${3%/*}/zaqfinell.o
    rm -f "$library"
    diff <(types_in_c "$target") <(types_in_module "$text") >&2 ||
        no_library "the calls of the module (>) are not those that the header declares (<)"
    choose_target "$target"
    compile_text "$text" "$object" "${choices[@]}" || no_library "clang does not compile the module for the target"
    case $target in *-none-*) drop_stack_mark "$object" || no_library 'the mark of its stack cannot be dropped' ;; esac
    "$(kit_bin)/ld.lld" -e zaq_run --defsym=memcpy=0 --defsym=memset=0 "$object" -o "$object.linked" ||
        no_library 'it needs more than memcpy and memset'
    "$(kit_bin)/llvm-ar" rcsD --format=gnu "$library" "$object"
    rm -f "$object" "$object.linked"
}
