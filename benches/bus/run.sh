#!/bin/sh
# Makes a crate of main.rt.txt in a temporary folder, over this checkout's crates, proves it and runs it.
set -e
top=$(cd "$(dirname "$0")/../.." && pwd)
scratch=$(mktemp -d)
trap 'rm -rf "$scratch"' EXIT
mkdir -p "$scratch/crates/bus_bench/src" "$scratch/crates/bus_bench/proofs/repeat"
for crate in sharc_word sharc_bus; do
    mkdir "$scratch/crates/$crate"
    for part in src specs proofs; do
        cp -R "$top/crates/$crate/$part" "$scratch/crates/$crate/"
    done
done
cp "$top/benches/bus/main.rt.txt" "$scratch/crates/bus_bench/src/main.rt"
cp "$top/benches/bus/Invariants.antt.txt" "$scratch/crates/bus_bench/proofs/repeat/Invariants.antt"
cp "$top/HANDLES" "$scratch/HANDLES"
cat >"$scratch/crates.txt" <<'LIST'
sharc_word:
sharc_bus tests_may=Threads: sharc_word atomic_table
bus_bench: sharc_word sharc_bus
LIST
cd "$scratch/crates/bus_bench"
rt run
