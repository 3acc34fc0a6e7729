# Random houses and steps of the independent program (tests/outside), which also says what is right. Sourced by tests/tool.sh.

as_printed() { # the outcome that zaq run tells, in the lines of House table
    awk '
        NR == 1 { gsub(/[:,;]/, ""); n = $11; print "taken", $3, "idle", $5, "unknown", $7, "stopped", $14; next }
        /^node [0-9]+ has not started: it knows nothing$/ { for (k = 1; k <= n; k++) print $2, k, "? ?"; next }
        /^node [0-9]+ has (started|stopped):$/ { node = $2; next }
        /^  to node / {
            gsub(/[:,]/, "")
            print node, $3, ($4 == "unknown" ? "? ?" : $4 == "unreachable" ? "- -" : $4 == "itself" ? "0 0" : $5 " " $NF)
            next
        }
        { print "unexpected:", $0 }'
}

as_routes() { # the lines of House table after a whole run, as zaq routes tells them: each way follows the first hops
    awk '
        NR > 1 { far[$1, $2] = $3; hop[$1, $2] = $4; n = $1 }
        END {
            for (i = 1; i <= n; i++) {
                print "from node " i (n == 1 ? ": there is no other device" : ":")
                for (k = 1; k <= n; k++) {
                    if (i == k) continue
                    line = "  to node " k (far[i, k] == "-" ? ": unreachable" : ", distance " far[i, k] ": node " i)
                    for (at = i; far[i, k] != "-" && at != k; at = hop[at, k]) line = line " -> node " hop[at, k]
                    print line
                }
            }
        }'
}

take_apart() { # take_apart: $work/input into $work/net and $work/recording, by the arc count in the third byte
    local count size
    count=$(od -An -tu1 -j2 -N1 "$work/input" | tr -d ' ')
    size=$((3 + (12 * ${count:-0} + 7) / 8))
    head -c "$size" "$work/input" > "$work/net"
    tail -c "+$((size + 1))" "$work/input" > "$work/recording"
}

whole_run() { # all nodes start, then every arc delivers 300 times: more than any node sends
    local first count k round=''
    read -r first _ count <<< "$(od -An -tu1 -N3 "$work/net")"
    for ((k = 16; k < 16 + count; k++)); do round+=$(printf '\\x%02x' "$k"); done
    for ((k = 0; k <= first % 16; k++)); do printf "\\x$(printf %02x "$k")"; done
    for ((k = 0; k < 300; k++)); do printf "$round"; done
}

right_routes() { # right_routes SEED: the routes are those that follow from the independent program's finished tables
    { cat "$work/net"; whole_run; } | "$independent" print > "$work/right"
    ask routes "$work/net"
    verdict "seed $1: the routes are told otherwise" cmp -s "$work/out" <(as_routes < "$work/right")
}

accepted() { # accepted SEED: the network comes back from a text, and runs and routes are right
    ask run --net "$work/net" "$work/recording"
    verdict "seed $1: the run is told otherwise" cmp -s <(as_printed < "$work/out") "$work/right"
    # who has stopped is told in as many headings as the independent program counts
    verdict "seed $1: others have stopped" \
        test "$(grep -c ' has stopped:$' "$work/out")" = "$(sed -nE '1s/.* stopped ([0-9]+)$/\1/p' "$work/right")"
    ask unpack "$work/net" -o "$work/net.txt"
    ask pack "$work/net.txt" -o "$work/again"
    verdict "seed $1: packed again, the network is another one" cmp -s "$work/net" "$work/again"
    right_routes "$1"
}

find_independent() {
    independent=$built/outside/outside
    [ -x "$independent" ] || bash tests/outside.sh quick > /dev/null
    verdict 'the independent program is built' test -x "$independent"
}

test_random() {
    local seed refused=0 taken=0
    find_independent
    for ((seed = 101; seed <= 124; seed++)); do
        "$independent" input "$seed" > "$work/input"
        "$independent" print < "$work/input" > "$work/right"
        take_apart
        if grep -q '^refused ' "$work/right"; then
            refused=$((refused + 1))
            # a network that is cut is refused for its length; nothing at all is told as such
            if [ -s "$work/net" ]; then
                bad 1 "$work/net: $(cat "$work/right"): " check --net "$work/net"
            else
                bad 1 "$work/net: the file is empty" check --net "$work/net"
            fi
        else
            taken=$((taken + 1))
            accepted "$seed"
        fi
    done
    verdict "$taken were accepted and $refused refused: too few of one kind" test "$taken" -ge 10 -a "$refused" -ge 3
}
