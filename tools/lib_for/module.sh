# Sourced: the one LLVM module that the toolchain hands to its own clang when it builds the proved library for x86-64, and what must hold of
# it. Each function takes the folder in which it works; no_library, which lib_for.sh has, ends with a message and without a library.
module_triple=x86_64-unknown-linux-gnu
module_march=x86-64

kit_bin() { echo "$(kit)/toolchain/bin"; }

link_all_but() { # link_all_but NAME FROM INTO: a link for each file and folder of FROM, but not for NAME
    local each
    mkdir -p "$3"
    for each in "$2"/*; do
        [ "${each##*/}" = "$1" ] || ln -s "$each" "$3/"
    done
}

# stand_in_kit WORK: a kit of links in WORK/kit in which only clang is another, tools/lib_for/stand_in.sh
stand_in_kit() {
    local home into=$1/kit script
    home=$(kit)
    link_all_but bin "$home" "$into"
    rm "$into/toolchain"
    link_all_but bin "$home/toolchain" "$into/toolchain"
    link_all_but clang "$home/toolchain/bin" "$into/toolchain/bin"
    # rt finds its kit by the folder that it really lies in
    link_all_but rt "$home/bin" "$into/bin"
    for script in rt rtlib.py; do
        rm -f "$into/bin/$script"
        cp "$home/bin/$script" "$into/bin/"
    done
    into=$into/toolchain/bin
    ln -s "$home/toolchain/bin/clang" "$into/own_clang"
    cp tools/lib_for/stand_in.sh "$into/clang"
    mkdir "$into/calls"
    ln -s "$into/calls" "$1/calls"
}

# take_module WORK: has the toolchain prove and build the library; leaves WORK/module.bc, and in the array `flags` how it is compiled
take_module() {
    local work=$1 status=0 calls words
    stand_in_kit "$work"
    # the first run takes some minutes: a line is shown for each crate
    rm -f crates/zaqfinell_c/out/libzaqfinell_c.a
    (cd crates/zaqfinell_c && "$work/kit/bin/rt" lib --cpu x86-64 2>&1) | tee "$work/log" | sed -un '/^crate /p' || status=$?
    if [ "$status" -ne 0 ]; then
        tail -n 5 "$work/log" >&2
        no_library "the toolchain did not prove and build the library for x86-64 (exit status $status)"
    fi
    calls=("$work"/calls/*/)
    if [ ${#calls[@]} -ne 1 ] || [ ! -f "${calls[0]}/words" ]; then
        no_library "the toolchain called its clang $(find "$work/calls/" -name words | wc -l) times, not once"
    fi
    mkdir -p target/staticlib
    cp crates/zaqfinell_c/out/libzaqfinell_c.a target/staticlib/libzaqfinell.a
    mapfile -d '' -t words < "${calls[0]}/words"
    read_words "${words[@]}"
    cp "${calls[0]}/module.bc" "$work/module.bc"
}

# read_words WORD..: what of the toolchain's call is taken over is left in the array `flags`: all but the files and what says x86-64
read_words() {
    local modules=0 triples=0 word
    flags=()
    while [ $# -gt 0 ]; do
        word=$1
        shift
        case $word in
        "--target=$module_triple") triples=$((triples + 1)) ;;
        "-march=$module_march" | --sysroot=*) ;;
        -o) if [ $# -gt 0 ]; then shift; fi ;;
        *.bc) modules=$((modules + 1)) ;;
        -mllvm) flags+=("$word" "${1-}") && shift $(($# > 0)) ;;
        -m* | --target* | -target* | -Xclang) no_library "the toolchain calls its clang with a word that is not known: $word" ;;
        *) flags+=("$word") ;;
        esac
    done
    [ "$modules" -eq 1 ] || no_library "the toolchain handed its clang $modules modules (.bc), not one"
    [ "$triples" -eq 1 ] || no_library "the toolchain did not call its clang for $module_triple"
}

# compile_text TEXT OBJECT WORD..: as the toolchain compiles its module, with the words that say for which chip
compile_text() {
    local text=$1 object=$2
    shift 2
    "$(kit_bin)/clang" "${flags[@]}" "$@" "$text" -o "$object"
}

# read_module WORK: the module's text in WORK/x86.ll, once it is found to be a module for x86-64. Clang would replace another data layout
# without a word, so an empty module for x86-64 is linked with it first: then it says what differs.
read_module() {
    local work=$1 clang
    clang=("$(kit_bin)/clang" "--target=$module_triple" -Werror -S -emit-llvm)
    "${clang[@]}" -x c /dev/null -Xclang -mlink-bitcode-file -Xclang "$work/module.bc" -o "$work/linked.ll" ||
        no_library "the module cannot be read, or its triple or data layout is not that of $module_triple"
    "${clang[@]}" -x ir "$work/module.bc" -Xclang -disable-llvm-passes -o "$work/x86.ll" ||
        no_library "the module's triple is not $module_triple"
}

# check_module WORK: everything in its text is known, and the text is that of the library: compiled as the toolchain does, it gives the same
# bytes as the toolchain's own library
check_module() {
    local work=$1 unknown ar library=target/staticlib/libzaqfinell.a
    ar=$(kit_bin)/llvm-ar
    unknown=$(awk -f tools/lib_for/known.awk "$work/x86.ll") || no_library 'its text cannot be read'
    [ -z "$unknown" ] || no_library "the module has what nobody has looked at for other chips: $(head -n 1 <<< "$unknown")"
    compile_text "$work/x86.ll" "$work/x86.o" "--target=$module_triple" "-march=$module_march" || no_library 'its text does not compile'
    [ "$("$ar" t "$library" | wc -l)" -eq 1 ] || no_library "$library does not have just one member"
    "$ar" p "$library" | cmp - "$work/x86.o" || no_library "$library, which was proved, is not what the module gives"
}
