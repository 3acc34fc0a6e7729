#!/usr/bin/env bash
# The long check: programs that others wrote look at the method (spin) and at the library's answers (networkx), and the outside tests are
# shown to notice planted mistakes (tests/planted). Some minutes.
# usage: run.sh [HOUSES [SEED]]     what is missing is told and counts as failed: nothing is claimed that was not run
set -u
cd "$(dirname "$0")/../.." || exit 1
. tools/host.sh
house_table=$(program house_table)
work=target/check_long
mkdir -p "$work"
passed=0
failed=0
versions=()
results=()

part() { # part NAME COMMAND..: runs the command and adds its closing line; its result is the line before
    local name=$1 began=$SECONDS status line
    shift
    echo "== $name"
    "$@" 2>&1 | tee "$work/log"
    status=${PIPESTATUS[0]}
    line=$(grep -E '^[0-9]+ passed, [0-9]+ failed$' "$work/log" | tail -n 1)
    if [ -z "$line" ]; then line='0 passed, 1 failed'; fi
    passed=$((passed + ${line%% *}))
    line=${line#*, }
    failed=$((failed + ${line%% *}))
    if [ "$status" -ne 0 ] && [ "${line%% *}" -eq 0 ]; then failed=$((failed + 1)); fi
    results+=("$name: exit status $status, $((SECONDS - began)) s; $(grep -E '^(spin|networkx|liars|planted): ' "$work/log" | tail -n 1)")
}

missing() { # missing NAME WHAT HOW
    echo "== $1: NOT RUN, $2 is missing: $3"
    failed=$((failed + 1))
    results+=("$1: NOT RUN, $2 is missing")
}

python_with_networkx() { # Debian's networkx belongs to Debian's python, which need not be the first one found
    local each
    for each in "${PYTHON:-python3}" /usr/bin/python3; do
        if "$each" -c 'import networkx' 2> /dev/null; then
            echo "$each"
            return
        fi
    done
}

liars() { # two programs that are wrong in one way each must be found out
    local caught=0 name
    printf '#!/bin/sh\n"%s" | sed "s/^1 2 \\([0-9][0-9]*\\) [0-9]*$/1 2 \\1 3/"\n' "$house_table" > "$work/wrong_hop"
    printf '#!/bin/sh\n"%s" | sed "s/? ?/- -/"\n' "$house_table" > "$work/unknown_is_unreachable"
    for name in wrong_hop unknown_is_unreachable; do
        chmod +x "$work/$name"
        "$python" tests/long/networkx_check.py "$work/$name" "$work/liars" 20 1 > "$work/said"
        # a program that does not run at all fails too, but not by what networkx says
        if grep -q 'and networkx says' "$work/said"; then
            caught=$((caught + 1))
        else
            echo "$name is not caught"
        fi
    done
    echo "liars: $caught of 2 caught"
    echo "$caught passed, $((2 - caught)) failed"
}

if ! command -v spin > /dev/null; then
    missing spin spin 'apt-get install spin gcc'
elif ! command -v gcc > /dev/null; then
    missing spin gcc 'apt-get install gcc'
elif ! command -v python3 > /dev/null; then
    missing spin python3 'apt-get install python3'
else
    versions+=("$(spin -V)" "$(gcc --version | head -n 1)")
    part spin python3 tests/long/spin_check.py "$work/spin"
fi

python=$(python_with_networkx)
if [ -z "$python" ]; then
    missing networkx networkx 'apt-get install python3-networkx'
elif [ ! -x target/bin/house_table ]; then
    missing networkx target/bin/house_table 'bash tools/build_house_table.sh builds it'
else
    versions+=("$("$python" --version), networkx $("$python" -c 'import networkx; print(networkx.__version__)')")
    part networkx "$python" tests/long/networkx_check.py "$house_table" "$work/networkx" "$@"
    part 'wrong programs' liars
fi

part 'planted mistakes' bash tests/planted/run.sh

echo "== versions"
if [ ${#versions[@]} -gt 0 ]; then printf '%s\n' "${versions[@]}"; fi
echo "== results"
printf '%s\n' "${results[@]}"
echo "$passed passed, $failed failed"
[ "$failed" -eq 0 ] && [ "$passed" -gt 0 ]
