#!/usr/bin/env bash
# What `make install` puts where, and that it can be used from there: a program is compiled by the installed pkg-config file and run, the
# installed tool says the header's version, the man page has every command and no mistake, and `make uninstall` leaves no file.
. "$(dirname "$0")/verdict.sh"

# a prefix takes no blanks, which the repository's own path may have
work=$(mktemp -d) || exit 1
trap 'rm -rf "$work"' EXIT
verdict 'the library is built' test -n "$(bash tools/library.sh)"
verdict 'the tool is built' bash tools/build.sh

files() { # files FOLDER: what is in it; the tool's second file, of a machine where it is emulated, is left out
    (cd "$1" && find . -type f ! -name zaq.x86_64 | sort | xargs)
}
wanted='./bin/zaq ./include/zaqfinell.h ./lib/libzaqfinell.a ./lib/pkgconfig/zaqfinell.pc ./share/man/man1/zaq.1'
version=$(sed -nE 's/^#define ZAQ_VERSION "(.*)"$/\1/p' include/zaqfinell.h)
verdict "the header's version is '$version'" grep -qE '^[0-9]+\.[0-9]+\.[0-9]+$' <<< "$version"

# into a prefix
prefix=$work/prefix
verdict 'make install' make -s install PREFIX="$prefix" DESTDIR= > "$work/told"
verdict "installed is $(files "$prefix")" test "$(files "$prefix")" = "$wanted"
for file in $wanted; do verdict "$file is not told" grep -qx "installed $prefix/${file#./}" "$work/told"; done
verdict 'the header as it is here' cmp -s include/zaqfinell.h "$prefix/include/zaqfinell.h"
verdict 'the library as it is here' cmp -s target/staticlib/libzaqfinell.a "$prefix/lib/libzaqfinell.a"
verdict 'the tool can be run by all, and the rest only read' test "$(cd "$prefix" && stat -c %a $wanted | xargs)" = '755 644 644 644 644'

# a program by what the pkg-config file says; what it prints is worked out in tests/examples.sh
pc=$prefix/lib/pkgconfig/zaqfinell.pc
if command -v pkg-config > /dev/null; then
    flags=$(PKG_CONFIG_PATH=${pc%/*} pkg-config --cflags --libs zaqfinell)
    verdict 'pkg-config says another version' test "$(PKG_CONFIG_PATH=${pc%/*} pkg-config --modversion zaqfinell)" = "$version"
else
    echo 'pkg-config is missing: its file is read by sed'
    flags=$(sed -nE -e "s,\\\$\{(include|lib)dir\},$prefix/\1,g" -e 's/^(Cflags|Libs): //p' "$pc" | xargs)
fi
read -ra flags <<< "$flags"
verdict 'the flags are not of the prefix' test "${flags[*]}" = "-I$prefix/include -L$prefix/lib -lzaqfinell"
verdict 'a program compiles' "$CC" -std=c99 -Wall -Wextra -Wpedantic -Werror examples/routes.c "${flags[@]}" -o "$work/routes"
verdict 'the program finds the way to the kitchen' grep -qx 'television -> soundbar -> kitchen: distance 5' <("$work/routes")

# the tool
verdict "the tool says '$("$prefix/bin/zaq" --version)'" test "$("$prefix/bin/zaq" --version)" = "zaq $version"
verdict 'the tool is found by its name' test "$(cd / && PATH=$prefix/bin:$PATH && zaq --version)" = "zaq $version"

# the man page
page=$prefix/share/man/man1/zaq.1
commands=$("$prefix/bin/zaq" help | sed -nE 's/^ *zaq ([a-z]+)( .*)?$/\1/p')
verdict "zaq help has the commands $(xargs <<< "$commands")" \
    test "$(sort <<< "$commands" | xargs)" = 'check draw help pack routes run show unpack write'
for command in $commands; do
    verdict "the man page has no usage of $command" grep -qE "^.fBzaq $command.fR" "$page"
    verdict "the man page does not say what $command does" grep -qx ".B $command" "$page"
done
# an option is written there with its hyphens escaped
for option in $("$prefix/bin/zaq" help | grep -oE -- '--[a-z]+|-o' | sort -u); do
    verdict "the man page does not have $option" grep -qF -- "${option//-/\\-}" "$page"
done
if command -v groff > /dev/null; then
    verdict "groff says '$(groff -man -ww -Tutf8 -z "$page" 2>&1)'" test -z "$(groff -man -ww -Tutf8 -z "$page" 2>&1)"
else
    echo 'the man page is not formatted: groff is missing'
fi

# again over what is there, then away with it; a file of somebody else stays
touch "$prefix/bin/other"
verdict 'make install again' make -s install PREFIX="$prefix" DESTDIR= > /dev/null
verdict 'make uninstall' make -s uninstall PREFIX="$prefix" DESTDIR= > "$work/told"
verdict "left is $(find "$prefix" ! -type d)" test "$(find "$prefix" ! -type d)" = "$prefix/bin/other"
for file in $wanted; do verdict "that $file goes is not told" grep -qx "removed $prefix/${file#./}" "$work/told"; done
verdict 'make uninstall where nothing is' grep -q '^nothing to remove' <(make -s uninstall PREFIX="$prefix" DESTDIR=)

# into the folder of a package, whose name may be anything; the files are made for the prefix
stage="$work/a package"
verdict 'make install for a package' make -s install PREFIX=/usr DESTDIR="$stage" > /dev/null
verdict "the package has $(files "$stage/usr")" test "$(files "$stage/usr")" = "$wanted"
verdict 'the package is for its prefix' test "$(sed -n 's/^prefix=//p' "$stage/usr/lib/pkgconfig/zaqfinell.pc")" = /usr
verdict 'make uninstall of a package' make -s uninstall PREFIX=/usr DESTDIR="$stage" > /dev/null
verdict 'a file of the package is left' test -z "$(find "$stage" ! -type d)"

fails() { # fails WORDS ARGUMENT..: make install with these says so, and installs nothing
    local words=$1
    shift
    ! make -s install DESTDIR="$stage" "$@" > /dev/null 2> "$work/words" &&
        grep -qF -- "$words" "$work/words" && [ -z "$(find "$stage" ! -type d)" ]
}
verdict 'a relative prefix is refused' fails 'PREFIX must begin with /' PREFIX=usr
verdict 'a prefix with a blank is refused' fails 'a character that a pkg-config file cannot have' PREFIX='/a b'
verdict 'a folder that cannot be made' fails 'Not a directory' PREFIX=/usr DESTDIR="$work/told"
library=target/staticlib/libzaqfinell.a
touch -r "$library" "$work/time"
touch -d 2000-01-01 "$library"
verdict 'a library that is older than its sources is not installed' fails 'run make lib tool first' PREFIX=/usr
touch -r "$work/time" "$library"
tool=target/bin/zaq
touch -r "$tool" "$work/time"
touch -d 2000-01-01 "$tool"
verdict 'a tool that is older than its sources is not installed' fails 'run make lib tool first' PREFIX=/usr
touch -r "$work/time" "$tool"

closing_line
