#!/usr/bin/env bash
# Tries the mutants of the second tier, crates/NAME/mutants/*.edit. For each of them, its crate keeps one like it in must-fail/.
#
# usage: mutants.sh [NAME..]             tries all, or those of the named crates
#        mutants.sh --tenth COMMAND..    runs a command while a tenth of them is in must-fail/
#
# The gate tries a tenth per run. The hash of the commit chooses it, so later commits try the others.
set -euo pipefail
cd "$(dirname "$0")/.."
prefix=second_tier_

# Removes the copies in must-fail/, also those that an interrupted run left.
remove_copies() {
    rm -f crates/*/must-fail/"$prefix"*.edit
}

# Copies each tenth mutant to must-fail/.
copy_tenth() {
    local hash mutants
    hash=$(git rev-parse HEAD)
    mutants=(crates/*/mutants/*.edit)
    local index=$((16#${hash:0:8} % 10))
    for ((; index < ${#mutants[@]}; index += 10)); do
        local mutant=${mutants[index]}
        cp "$mutant" "${mutant%/mutants/*}/must-fail/$prefix${mutant##*/}"
    done
}

# Tries the mutants in a copy of the repository, in which they are the only ones. The copy shares what checks have kept.
try_all() {
    copy=$(mktemp -d)
    trap 'rm -rf "$copy"' EXIT
    cp -r HANDLES crates.txt crates "$copy"
    cd "$copy"
    rm -rf crates/*/must-fail
    for mutants in crates/*/mutants; do
        mv "$mutants" "${mutants%/*}/must-fail"
    done
    rt must-fail "$@"
}

if [[ ${1-} != --tenth ]]; then
    try_all "$@"
    exit
fi
trap remove_copies EXIT
remove_copies
copy_tenth
"${@:2}"
