#!/usr/bin/env bash
# Nothing is assumed: reads what `rt ci` printed and holds each crate's verdict to it. Every crate of crates.txt is proved from nothing, in
# that run or, where the toolchain says that it is kept, in an earlier one on this machine over the same files, and no verdict names an
# axiom. What is linked is asked once more, since only there the toolchain tells what the linked code reaches: the library nothing, and the
# program house_table what the kit says of C's read and write, and of a program's arguments. So is walk, which is linked with neither.
# usage: axioms.sh LOG    LOG is what `rt ci` printed
. "$(dirname "$0")/log.sh"

# one line for each crate that is proved: its name, its verdict (`kept` where it was not checked anew), and the axioms it names
verdicts=$(awk '
    /^== / { logic = axioms = "" }
    /^axioms / && !/: none reached / { axioms = axioms (axioms == "" ? "" : "; ") $0; next }
    /^logic=/ { logic = $0; next }
    /^rt: [A-Za-z0-9_]+ is kept: / { print $2 "|kept|"; next }
    /^rt: [A-Za-z0-9_]+ proved( |$)/ { print $2 "|" (logic == "" ? "none" : logic) "|" axioms; logic = axioms = "" }' "$log")

# the axioms that a linked crate may name
allowed_to() {
    [ "$1" != house_table ] ||
        echo 'axioms libc: libc::read, libc::write; axioms os: os::c::rattle_arg, os::c::rattle_errno, os::c::rattle_set_errno'
}

held() { # held VERDICT AXIOMS ALLOWED: proved, and with no other axioms than the allowed ones; how many are declared is no matter
    [ "${1%% *}" = logic=proved ] || return 1
    [[ ! "$1" =~ (foreign|partial|may-abort|may-wait|hides|bugs|holes)= ]] || return 1
    if [ -z "$3" ]; then [[ "$1" != *axioms* ]] && [ -z "$2" ]; else [ "$(sed 's/ ([^)]*)//g' <<< "$2")" = "$3" ]; fi
}

crates=$(sed -nE 's/^([a-z0-9_]+)( [^:]*)?:.*/\1/p' crates.txt)
verdict 'crates.txt names no crate' test -n "$crates"
for crate in $crates; do
    line=$(grep "^$crate|" <<< "$verdicts")
    verdict "$crate has $(grep -c "^$crate|" <<< "$verdicts") verdicts, not one" test "$(grep -c "^$crate|" <<< "$verdicts")" = 1
    rest=${line#*|}
    if [ "${rest%|*}" != kept ]; then
        verdict "$crate: ${rest:-no verdict}" held "${rest%|*}" "${rest##*|}" "$(allowed_to "$crate")"
    fi
done

for crate in zaqfinell_c house_table walk; do
    said=$(cd "crates/$crate" && rt check 2>&1)
    reached=$(grep '^axioms ' <<< "$said" | grep -v ': none reached ' | paste -sd '|' | sed 's/|/; /g')
    verdict "$crate: $(tail -n 1 <<< "$said") $reached" held "$(grep '^logic=' <<< "$said" | tail -n 1)" "$reached" "$(allowed_to "$crate")"
done

closing_line
