#!/usr/bin/env bash
# Stands in the place of the toolchain's clang, in a kit of links (module.sh): keeps the words of each call, and the modules that they name,
# in the folder `calls` beside it, and then is the toolchain's own clang.
set -eu
here=$(dirname "$0")
call=$(mktemp -d "$here/calls/XXXXXX")
printf '%s\0' "$@" > "$call/words"
for word in "$@"; do
    case $word in *.bc) cp -- "$word" "$call/module.bc" ;; esac
done
exec "$(readlink "$here/own_clang")" "$@"
