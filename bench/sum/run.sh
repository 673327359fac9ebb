#!/usr/bin/env bash
# Times fz_sum on this machine, over 268 MB of random bytes: a file in a scratch folder, read in pieces of
# 64 KB that each are added to a sum. The first four passes have the pieces at whole words, the others not.
set -eu
root=$(cd "$(dirname "$0")/../.." && pwd)
scratch=${1:-$(mktemp -d)}
mkdir -p "$scratch/crates/sum_bench/src"
cp -r "$root/crates/fz_card" "$root/crates/fz_sum" "$scratch/crates/"
printf 'fz_card: itoa\nfz_sum: fz_card byteorder itoa\nsum_bench: fz_sum\n' > "$scratch/crates.txt"
cp "$root/bench/sum/main.rt.txt" "$scratch/crates/sum_bench/src/main.rt"
cd "$scratch/crates/sum_bench"
head -c 268435456 /dev/urandom > bytes
rt run > "$scratch/log" 2>&1 || { tail -5 "$scratch/log"; exit 1; }
./out/sum_bench
