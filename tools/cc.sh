#!/usr/bin/env bash
# A C compiler for x86-64, or for the target that ZAQ_TARGET names, on another processor: Debian's cross compiler, and for each program a
# script that runs it under an emulator, so that whoever builds `-o NAME` can run NAME.
set -eu
. "$(dirname "$0")/host.sh"
more=()
case ${ZAQ_TARGET:-x86_64-linux-gnu} in
x86_64-linux-gnu | aarch64-linux-gnu) debian=${ZAQ_TARGET:-x86_64-linux-gnu} ;;
armv7-linux-gnueabihf) debian=arm-linux-gnueabihf ;;
thumbv7em-none-eabihf)
    # the emulated processor has these instructions too; the linker would not mix code for a chip without an operating system with the rest
    debian=arm-linux-gnueabihf
    more=(-Wl,--no-warn-mismatch -Wl,-z,noexecstack)
    ;;
*)
    echo "$0: no C compiler is known for ZAQ_TARGET=$ZAQ_TARGET" >&2
    exit 2
    ;;
esac
cross=$debian-gcc processor=${debian%%-*}
if ! command -v "$cross" > /dev/null; then
    echo "$0: $cross is missing: apt-get install gcc-${debian//_/-}" >&2
    exit 1
fi
out='' links=yes previous=''
for word in "$@"; do
    if [ "$previous" = -o ]; then out=$word; fi
    case $word in -c | -E | -S | -fsyntax-only | --version) links=no ;; esac
    previous=$word
done
if [ "$links" = no ] || [ -z "$out" ]; then exec "$cross" "$@"; fi
runner=$(emulator "$processor") || { echo "$0: no emulator for $processor: apt-get install qemu-user" >&2; exit 1; }
"$cross" "$@" ${more[@]+"${more[@]}"}
mv "$out" "$out.$processor"
# -L: where the cross compiler's C library stands
printf '#!/bin/sh\nexec "%s" -L /usr/%s "$(readlink -f "$0").%s" "$@"\n' "$runner" "$debian" "$processor" > "$out"
chmod +x "$out"
