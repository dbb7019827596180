#!/usr/bin/env bash
# Times a lane of packets beside a plain ring in Rust and the standard library's bounded channel.
# The lane's program is written into a copy of the crates that it stands on, proved and built there.
set -eu
here=$(cd "$(dirname "$0")" && pwd)
top=$(cd "$here/../.." && pwd)
work=$(mktemp -d)
trap 'rm -rf "$work"' EXIT
stands_on="rf_base chdr_words chdr_packets block_library credit_lane"
mkdir -p "$work/lanes/crates"
for crate in $stands_on; do
  cp -r "$top/crates/$crate" "$work/lanes/crates/"
  grep "^$crate:" "$top/crates.txt" >> "$work/lanes/crates.txt"
done
cp "$top/HANDLES" "$work/lanes/"
echo "lane_bench: $stands_on" >> "$work/lanes/crates.txt"
made="$work/lanes/crates/lane_bench"
mkdir -p "$made/src"
cp "$here/lane_bench/main.rt.in" "$made/src/main.rt"
for function in fill drain fill_all alone; do
  mkdir -p "$made/proofs/$function"
  cp "$here/lane_bench/$function.antt.in" "$made/proofs/$function/Invariants.antt"
done
(cd "$made" && rt run > "$work/out" 2>&1) || { tail -n 20 "$work/out"; exit 1; }
cp -r "$here/ring" "$work/ring"
(cd "$work/ring" && cargo build --quiet --release)
# Five turns of both, and the best time of each line.
for _ in 1 2 3 4 5; do
  "$made/out/lane_bench"
  "$work/ring/target/release/ring"
done | awk -F': ' '/packets in/ {
  split($2, word, " ")
  if (!($1 in best) || word[4] < best[$1]) best[$1] = word[4]
  if (!($1 in seen)) { seen[$1] = 1; order[++n] = $1 }
  packets = word[1]
}
END {
  for (i = 1; i <= n; i++)
    printf "%-45s %6.1f million packets a second\n", order[i], packets / best[order[i]]
}'
