#!/usr/bin/env bash
# Builds the tool zaq, linked with the library, where the target's programs are (target/bin/zaq). A tool that is newer than all that it is
# made of is left as it is, unless ZAQ_LIBRARY names another library (tools/library.sh). `build.sh --is-new` builds nothing, and ends with
# status 0 where there is such a tool.
set -eu
cd "$(dirname "$0")/.."
. tools/host.sh
library=$(bash tools/library.sh)
tool=$built/bin/zaq
is_new() { [ -x "$tool" ] && [ -z "$(find tools/zaq tools/build.sh include "$library" -newer "$tool" -print -quit)" ]; }
if [ "${1:-}" = --is-new ]; then
    is_new
    exit
fi
if [ -z "${ZAQ_LIBRARY:-}" ] && is_new; then exit; fi
mkdir -p "$(dirname "$tool")"
"$CC" -std=c99 -Wall -Wextra -Wpedantic -Werror -O2 -Iinclude tools/zaq/*.c "$library" -lm -o "$tool"
