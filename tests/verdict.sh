# Sourced by the tests that are scripts: goes to the repository's root, counts, and makes bytes.
set -u
cd "$(dirname "${BASH_SOURCE[0]}")/.." || exit 1
. tools/host.sh
passed=0
failed=0

verdict() { # verdict TEXT TEST..: one check, told where it fails
    local text=$1
    shift
    if "$@"; then
        passed=$((passed + 1))
    else
        failed=$((failed + 1))
        echo "$0: $text" >&2 # a test's own output may go elsewhere
    fi
}

bytes() { # bytes DIGITS: two hexadecimal digits to a byte
    local digits=$1 k
    for ((k = 0; k < ${#digits}; k += 2)); do printf "\\x${digits:k:2}"; done
}

closing_line() {
    echo "$passed passed, $failed failed"
    [ "$failed" -eq 0 ] && [ "$passed" -gt 0 ]
}
