#!/usr/bin/env bash
# The README's C program compiles without a warning against the header and the static library, and says what it should. And its transcripts:
# in each block that begins with ```console, every line `$ COMMAND` is run, one shell for each block, in a scratch folder that has examples/
# in it, with the tool on the PATH; what it prints must be exactly the lines that follow.
# usage: readme.sh [FILE..]    runs the transcripts of these; if none is named, of README.md and docs/HOUSE.md, and the C program
. "$(dirname "$0")/verdict.sh"

work=$built/readme
rm -rf "$work"
mkdir -p "$work"

c_program() {
    local library
    sed -n '/^```c$/,/^```$/p' README.md | sed '/^```/d' > "$work/program.c"
    verdict 'it has a C program' test -s "$work/program.c"
    library=$(bash tools/library.sh)
    verdict 'the static library is built' test -n "$library"
    verdict 'its program compiles' \
        "$CC" -std=c99 -Wall -Wextra -Wpedantic -Werror -Iinclude "$work/program.c" "$library" -o "$work/program"
    verdict 'its program says the distance of 01 for that house' test "$("$work/program")" = 'distance 1 by 2'
}

take_apart() { # take_apart FILE FOLDER: BLOCK.sh runs a block's commands into BLOCK.K.out, and BLOCK.K.wanted has what follows each
    awk -v folder="$2" '
        /^```console$/ { on = 1; count = 0; block = sprintf("%02d", block + 1); script = folder "/" block ".sh"; next }
        /^```/ { on = 0; next }
        on && /^\$ / {
            name = folder "/" block "." ++count
            printf "" > (name ".wanted")
            # a brace of its own, so that $? and variables last until the next command
            print "{ " substr($0, 3) "\n} > \"$results/" block "." count ".out\" 2>&1" > script
            next
        }
        on { if (count) print > (name ".wanted"); else print FILENAME ":" FNR ": no command before this line" > (folder "/lost") }
        END { if (on) print FILENAME ": a block without an end" > (folder "/lost") }' "$1"
}

transcripts() { # transcripts FILE
    local folder="$work/${1//\//_}" scratch="$work/scratch" script wanted
    rm -rf "$folder" "$scratch"
    mkdir -p "$folder" "$scratch"
    cp -r examples "$scratch"
    take_apart "$1" "$folder"
    verdict "$1: every line of a transcript belongs to a command" test ! -e "$folder/lost"
    for script in "$folder"/*.sh; do
        [ -e "$script" ] || return
        (cd "$scratch" && results=$OLDPWD/$folder PATH=$OLDPWD/$built/bin:$PATH bash "$OLDPWD/$script" < /dev/null)
        for wanted in "${script%.sh}".*.wanted; do
            verdict "$1: command $(basename "$wanted" .wanted), as transcript.command, prints something else" \
                diff "$wanted" "${wanted%.wanted}.out"
            commands=$((commands + 1))
        done
    done
}

commands=0
verdict 'the tool is built' bash tools/build.sh
if [ $# -eq 0 ]; then
    c_program
    set -- README.md docs/HOUSE.md
fi
for file in "$@"; do
    verdict "there is no file $file" test -f "$file"
    transcripts "$file"
done
verdict 'no transcript has a command' test "$commands" -gt 0

closing_line
