# Sourced by the scripts that compile or run C programs. The library and its programs are for x86-64, or for the target that ZAQ_TARGET
# names (tools/lib_for.sh). On another processor they are compiled by a cross compiler and run under an emulator (tools/cc.sh); there a time
# says nothing.
# Sets CC, `emulated` (yes or no), `built` (the folder for what is built), and the functions `kit`, `emulator` and `program`.
repository=$(cd "$(dirname "${BASH_SOURCE[0]}")/.." && pwd)
built=target${ZAQ_TARGET:+/$ZAQ_TARGET}
if [ "${ZAQ_TARGET:-x86_64-linux-gnu}" = "$(uname -m)-linux-gnu" ]; then
    emulated=no
    CC=${CC:-cc}
else
    emulated=yes
    CC=${CC:-$repository/tools/cc.sh}
fi
export CC

# the toolchain's folder
kit() { dirname "$(rt doc)"; }

# emulator PROCESSOR: the toolchain's, or one that is installed
emulator() {
    local own
    own=$(kit)/toolchain/bin/qemu-$1
    if [ -x "$own" ]; then echo "$own"; else command -v "qemu-$1" || command -v "qemu-$1-static"; fi
}

# program NAME: where target/bin/NAME, which rt has linked for x86-64, can be run
program() {
    local runs=$repository/target/bin/$1 lib
    if [ "$(uname -m)" != x86_64 ]; then
        lib=$(kit)/toolchain/lib
        mkdir -p "$repository/target/emulated"
        printf '#!/bin/sh\nexec "%s" "%s" --library-path "%s" "%s" "$@"\n' \
            "$(emulator x86_64)" "$lib/ld-linux-x86-64.so.2" "$lib" "$runs" > "$repository/target/emulated/$1"
        runs=$repository/target/emulated/$1
        chmod +x "$runs"
    fi
    echo "$runs"
}
