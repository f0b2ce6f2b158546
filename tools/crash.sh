#!/usr/bin/env bash
# Kills a program that changes a store of the Rust crate, again and again, and compares what the file then has with what was acknowledged.
#
# usage: crash.sh            kills it 1,000 times, and then the other programs that change a store in a file as often
#        crash.sh SECONDS    kills it alone, for at most so many seconds, not counting the time that cargo builds
#
# The program, native/examples/crash.rs, commits, rewinds, drops commits and compacts its file, and prints each change that was acknowledged. It is
# killed by SIGKILL at a random time. Then the file has to have all that was acknowledged, and at most one change more, whole. Every second time
# the store is buffered, and every third time it compacts its file by itself. The next program goes on with the same file.
#
# As root it also mounts a small file system in memory, and fills it: what was acknowledged has to be there once there is space again.
#
# The other programs are the proved one, which tools/crash_store.py kills if the gate has built it, and one in Python, which changes one store in turn with
# the first program, if MORTARPINK_LIB_DIR is the absolute path of the folder of the C library.
set -euo pipefail
cd "$(dirname "$0")/../native"
crash() {
    cargo run --quiet --release --example crash -- "$@"
}

cargo build --quiet --release --example crash
crash 1000 "${1:-1000000}"

folder=$(mktemp -d)
trap 'umount "$folder" 2>/dev/null || true; rmdir "$folder"' EXIT
if mount -t tmpfs -o size=128k mortarpink "$folder" 2>/dev/null; then
    crash full "$folder"
else
    echo "crash.sh: no file system can be mounted here, so none is filled"
fi

if (($# == 0)); then
    if [[ -x ../crates/store_runs/out/store_runs ]]; then
        ../tools/crash_store.py 1000
    else
        echo "crash.sh: crates/store_runs is not built, so the proved program is not killed"
    fi
    if [[ -n ${MORTARPINK_LIB_DIR:-} ]]; then
        python3 ../bindings/python/tests/exchange.py "${CARGO_TARGET_DIR:-target}/release/examples/crash" 1000
    else
        echo "crash.sh: MORTARPINK_LIB_DIR is not set, so no program in Python is killed"
    fi
fi
