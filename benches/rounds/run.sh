#!/bin/sh
# Makes a crate of the file here in a temporary folder, over this checkout's crates, proves it and runs it; then the same loops in C, plain and under
# helgrind.
set -e
top=$(cd "$(dirname "$0")/../.." && pwd)
here=$top/benches/rounds
scratch=$(mktemp -d)
trap 'rm -rf "$scratch"' EXIT
for crate in word shadow granule count cond locks tree code cpu threads bus rounds; do
    mkdir -p "$scratch/crates/sharc_$crate"
    for part in src specs proofs; do
        if [ -d "$top/crates/sharc_$crate/$part" ]; then
            cp -R "$top/crates/sharc_$crate/$part" "$scratch/crates/sharc_$crate/"
        fi
    done
    grep "^sharc_$crate[ :]" "$top/crates.txt" >>"$scratch/crates.txt"
done
echo 'rounds_bench tests_may=Threads: sharc_bus sharc_code sharc_cpu sharc_rounds sharc_tree sharc_word' >>"$scratch/crates.txt"
cp "$top/HANDLES" "$scratch/HANDLES"
bench=$scratch/crates/rounds_bench
mkdir -p "$bench/src"
cp "$here/src/main.rt.txt" "$bench/src/main.rt"
cd "$bench"
rt run
cc -O0 -pthread -o "$scratch/loops" "$here/loops.c"
echo 'the same loops in C at -O0:'
"$scratch/loops" count 10000000
"$scratch/loops" checked 2000000
"$scratch/loops" locked 20000
if command -v valgrind >/dev/null; then
    echo 'and under helgrind, a tenth of the rounds:'
    valgrind --tool=helgrind "$scratch/loops" count 1000000 2>/dev/null
    valgrind --tool=helgrind "$scratch/loops" checked 200000 2>/dev/null
    valgrind --tool=helgrind "$scratch/loops" locked 2000 2>/dev/null
fi
