#!/usr/bin/env bash
# Writes the sample house, examples/house.txt, as House table reads it: the network's bytes, then step bytes that run it to the end.
#   sample_house.sh           the whole input
#   sample_house.sh network   the network's bytes alone
#   sample_house.sh steps     the step bytes alone
set -eu
cd "$(dirname "$0")/.."
. tools/host.sh
bash tools/build.sh

network() { "$built/bin/zaq" pack examples/house.txt -o -; }

# all nodes start, then every arc delivers again and again
steps() {
    local first arcs round k
    read -r first _ arcs <<< "$(network | od -An -tu1 -N3)"
    for ((k = 0; k <= first % 16; k++)); do printf "\\x$(printf %02x "$k")"; done
    for ((round = 0; round < 40; round++)); do
        for ((k = 16; k < 16 + arcs; k++)); do printf "\\x$(printf %02x "$k")"; done
    done
}

case ${1:-all} in
all)
    network
    steps
    ;;
network | steps) "$1" ;;
*)
    echo "usage: $0 [network|steps]" >&2
    exit 2
    ;;
esac
