#!/bin/sh
# Makes a crate of the files here in a temporary folder, over this checkout's crates, proves it and runs it; then the same loops in C, plain and under
# helgrind.
set -e
top=$(cd "$(dirname "$0")/../.." && pwd)
here=$top/benches/machine
scratch=$(mktemp -d)
trap 'rm -rf "$scratch"' EXIT
for crate in word shadow granule count cond locks tree code cpu threads seq bus; do
    mkdir -p "$scratch/crates/sharc_$crate"
    for part in src specs proofs; do
        if [ -d "$top/crates/sharc_$crate/$part" ]; then
            cp -R "$top/crates/sharc_$crate/$part" "$scratch/crates/sharc_$crate/"
        fi
    done
    grep "^sharc_$crate[ :]" "$top/crates.txt" >>"$scratch/crates.txt"
done
echo 'machine_bench tests_may=Threads: sharc_bus sharc_code sharc_cpu sharc_seq sharc_tree sharc_word' >>"$scratch/crates.txt"
cp "$top/HANDLES" "$scratch/HANDLES"
bench=$scratch/crates/machine_bench
(cd "$here" && find src proofs -name '*.txt') | while read -r file; do
    mkdir -p "$bench/$(dirname "$file")"
    cp "$here/$file" "$bench/${file%.txt}"
done
cd "$bench"
rt run
cc -O0 -pthread -o "$scratch/loops" "$here/loops.c"
echo 'the same loops in C at -O0:'
"$scratch/loops" count 16000000
"$scratch/loops" global 16000000
"$scratch/loops" locked 200000
if command -v valgrind >/dev/null; then
    echo 'and under helgrind:'
    valgrind --tool=helgrind "$scratch/loops" count 16000000 2>/dev/null
    valgrind --tool=helgrind "$scratch/loops" global 16000000 2>/dev/null
    valgrind --tool=helgrind "$scratch/loops" locked 20000 2>/dev/null
fi
