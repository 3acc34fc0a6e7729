#!/usr/bin/env bash
# Installs the header, the static library, its pkg-config file, the tool and its man page, as they are built: nothing is built or proved.
#   install.sh             into DESTDIR/PREFIX; what is installed is told
#   install.sh --remove    takes the same files away; folders stay, since others may use them
# PREFIX is where the files will be used, /usr/local if none is given. DESTDIR is a folder in which a package is put together, if any.
set -eu
cd "$(dirname "$0")/.."
prefix=${PREFIX:-/usr/local}
into=${DESTDIR:-}$prefix

fail() {
    echo "$0: $*" >&2
    exit 1
}

case ${1:-} in '' | --remove) ;; *) fail "there is no option '$1'; usage: $0 [--remove]" ;; esac
case $prefix in /*) ;; *) fail "PREFIX must begin with /, and is '$prefix'" ;; esac
case $prefix in *[[:space:]\"\'\\\$\#]*) fail "PREFIX '$prefix' has a character that a pkg-config file cannot have" ;; esac

# where, from what, and with which mode
files=(
    'include/zaqfinell.h include/zaqfinell.h 644'
    'lib/libzaqfinell.a target/staticlib/libzaqfinell.a 644'
    'bin/zaq target/bin/zaq 755'
    'share/man/man1/zaq.1 tools/zaq/zaq.1 644'
)
emulated='bin/zaq.x86_64 target/bin/zaq.x86_64 755' # the tool is two files where tools/cc.sh has built it
pc=lib/pkgconfig/zaqfinell.pc

remove() {
    local file gone=no
    for file in "${files[@]}" "$emulated" "$pc"; do
        file=$into/${file%% *}
        if [ -e "$file" ] || [ -L "$file" ]; then
            rm -f "$file"
            echo "removed $file"
            gone=yes
        fi
    done
    [ "$gone" = yes ] || echo "nothing to remove: none of the files is in $into"
}

pc_text() { # pc_text VERSION
    cat << END
prefix=$prefix
includedir=\${prefix}/include
libdir=\${prefix}/lib

Name: Zaqfinell
Description: proved routing for houses of up to sixteen televisions, soundbars and repeaters
Version: $1
Cflags: -I\${includedir}
Libs: -L\${libdir} -lzaqfinell
END
}

put() {
    local version file source mode
    version=$(sed -nE 's/^#define ZAQ_VERSION "([^"]+)"$/\1/p' include/zaqfinell.h)
    [ -n "$version" ] || fail 'include/zaqfinell.h does not define ZAQ_VERSION'
    if [ -e target/bin/zaq.x86_64 ]; then files+=("$emulated"); fi
    for file in "${files[@]}"; do
        read -r file source mode <<< "$file"
        [ -f "$source" ] || fail "there is no $source: run make lib tool first"
    done
    for file in "${files[@]}"; do
        read -r file source mode <<< "$file"
        install -D -m "$mode" "$source" "$into/$file"
        echo "installed $into/$file"
    done
    pc_text "$version" | install -D -m 644 /dev/stdin "$into/$pc"
    echo "installed $into/$pc"
}

if [ "${1:-}" = --remove ]; then remove; else put; fi
