# Sourced by the tests that read what `rt ci` printed: leaves the path of that in `log`, and sources verdict.sh. Ends where there is no
# such file.
log=${1:-}
[ -f "$log" ] && log=$(cd "$(dirname "$log")" && pwd)/$(basename "$log")
. "$(dirname "$0")/verdict.sh"
if [ ! -f "$log" ]; then
    echo "usage: $0 LOG    LOG is what rt ci printed; there is no file '$log'" >&2
    echo '0 passed, 1 failed'
    exit 2
fi
