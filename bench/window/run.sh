#!/usr/bin/env bash
# Times encode_window and decode_window on this machine: run.sh [FOLDER [RICE_1|PLIO_1|stored]], in a scratch folder.
# RT names another rt.
set -eu
root=$(cd "$(dirname "$0")/../.." && pwd)
scratch=${1:-$(mktemp -d)}
bench=$scratch/crates/window_bench
rm -rf "$bench/proofs"
mkdir -p "$bench/src"
for name in fz_base fz_bits fz_rice fz_plio fz_tile fz_pool; do
  rm -rf "$scratch/crates/$name"
  cp -r "$root/crates/$name" "$scratch/crates/"
done
cp "$root/HANDLES" "$scratch/"
{ grep -E '^fz_(base|bits|rice|plio|tile|pool):' "$root/crates.txt"; echo 'window_bench: fz_base fz_bits fz_tile fz_pool'; } > "$scratch/crates.txt"
cp "$root/bench/window/main.rt.txt" "$bench/src/main.rt"
(cd "$root/bench/window/proofs" && find . -name '*.antt.txt') | while read -r file; do
  mkdir -p "$bench/proofs/$(dirname "$file")"
  cp "$root/bench/window/proofs/$file" "$bench/proofs/${file%.txt}"
done
cd "$bench"
"${RT:-rt}" run -- nothing > "$scratch/log" 2>&1 || { tail -5 "$scratch/log"; exit 1; }
for _ in 1 2 3; do ./out/window_bench ${2:+"$2"}; done
