#!/usr/bin/env bash
# Runs the scenarios of failed allocations: the tests in the module `allocation_failures` of each crate that has one.
#
# A scenario runs once for each of its allocations, with that allocation failing, and once more with all from it on failing.
# Each run has to free what it allocates.
# With no failure it makes as many allocations as tools/allocations.txt says.
# The tests are built first, which proves what has changed. With --built they are those that `rt ci` has just built.
set -euo pipefail
cd "$(dirname "$0")/.."
table=tools/allocations.txt

if ! command -v cc >/dev/null; then
    echo "allocation failures: this machine has no C compiler (cc)" >&2
    exit 1
fi
folder=$(mktemp -d)
trap 'rm -rf "$folder"' EXIT
cc -O2 -Wall -Wextra -shared -fPIC -o "$folder/fail_allocations.so" tools/fail_allocations.c -ldl

passed=0
failed=0
declare -A wanted

fail() {
    echo "FAILED: $*"
    failed=$((failed + 1))
}

# Reads the table into `wanted`: a number for each crate and scenario.
read_table() {
    local crate scenario number more
    while read -r crate scenario number more; do
        if [[ -z $crate || $crate == \#* ]]; then
            continue
        elif [[ ! $number =~ ^[0-9]+$ || -n $more ]]; then
            fail "$table: not a crate, a scenario and a number: $crate $scenario $number $more"
        elif [[ -n ${wanted["$crate $scenario"]:-} ]]; then
            fail "$table: $crate $scenario has two lines"
        else
            wanted["$crate $scenario"]=$number
        fi
    done <"$table"
}

# Builds the tests of crate $1. With --built as $2, only checks that they are newer than the sources.
build() {
    local tests=crates/$1/out/$1_tests newer
    if [[ $2 != --built ]]; then
        (cd "crates/$1" && rt test -- allocation_failures::)
        return
    fi
    newer=$tests
    if [[ -x $tests ]]; then
        newer=$(find crates.txt crates/*/src crates/*/specs ! -type d -newer "$tests" -print -quit)
    fi
    if [[ -n $newer ]]; then
        echo "allocation failures: $tests is missing, or older than the sources: run this without --built" >&2
        return 1
    fi
}

# Runs scenario $1 with variable $2 set to $3, and stores the number of its allocations in `made`.
run() {
    timeout 20 env LD_PRELOAD="$folder/fail_allocations.so" "$2=$3" "$tests" "$1" >"$folder/output" 2>&1 || return 1
    made=$(sed -n 's/^allocations: //p' "$folder/output")
    [[ -n $made ]] && grep -q '^blocks: .* made, 0 left, ' "$folder/output"
}

# Runs scenario $1 with variable $2 set to 1, 2, 3 and so on, up to the first run in which no allocation fails.
run_each() {
    for ((k = 1; ; k++)); do
        if ! run "$1" "$2" "$k"; then
            fail "$crate $1 with $2=$k"
            cat "$folder/output"
            return 1
        fi
        if ((made < k)); then
            return 0
        fi
    done
}

# Runs scenario $1 in both ways, and compares the number of its allocations with the table.
run_scenario() {
    local key="$crate $1"
    run_each "$1" FAIL_AT || return 0
    run_each "$1" FAIL_FROM || return 0
    if [[ -z ${wanted[$key]:-} ]]; then
        fail "$key makes $made allocations, and $table has no line for it"
    elif [[ ${wanted[$key]} != "$made" ]]; then
        fail "$key makes $made allocations, and $table says ${wanted[$key]}"
    else
        echo "$key $made"
        passed=$((passed + 1))
    fi
    unset "wanted[$key]"
}

read_table
for root in $(grep -lsE '^mod allocation_failures;' crates/*/src/lib.rt crates/*/src/main.rt); do
    crate=$(cut -d/ -f2 <<<"$root")
    tests=crates/$crate/out/${crate}_tests
    build "$crate" "${1:-}"
    listed=$("$tests" --list)
    for scenario in $(sed -n 's/^\(allocation_failures::.*\): test$/\1/p' <<<"$listed"); do
        run_scenario "$scenario"
    done
done
for key in "${!wanted[@]}"; do
    fail "$table: $key is not a scenario"
done
echo "$passed passed, $failed failed"
((failed == 0 && passed > 0))
