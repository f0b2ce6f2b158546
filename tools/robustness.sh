#!/usr/bin/env bash
# Runs the program and the tests that the gate has built on random scripts, with failing allocations and on wrong input.
# Each run has to free what it allocates (tools/check_frees.py).
# Fails if a run does, or if there are fewer runs than the least that is given here.
set -euo pipefail
cd "$(dirname "$0")/.."
output=$(mktemp)
trap 'rm -f "$output"' EXIT

# Fails if the number of $1, which is $2, is below $3.
at_least() {
    local count=${2:-0}
    if ((count < $3)); then
        echo "robustness: $1: $count, not at least $3" >&2
        exit 1
    fi
}

# Runs a tool with its arguments. It has to make at least $1 runs.
runs() {
    "${@:2}" | tee "$output"
    at_least "runs of ${*:2}" "$(sed -n '$s/^.*: \([0-9]*\) runs, 0 failed$/\1/p' "$output")" "$1"
}

# Crate $1 has to have at least $2 scenarios of failed allocations.
scenarios() {
    at_least "scenarios of $1" "$(grep -c "^$1 " "$output")" "$2"
}

runs 3000 tools/check_runs.py random 3000
runs 12 tools/check_runs.py exhaustive
runs 23000 tools/check_runs.py allocation_failures 28
runs 550 tools/check_errors.py
tools/allocation_failures.sh --built | tee "$output"
scenarios conformance 40
scenarios conformance_authenticated 6
scenarios conformance_authenticated_history 3
scenarios conformance_history 30
scenarios conformance_log 16
scenarios conformance_session 6
tools/check_frees.py
