#!/usr/bin/env bash
# bench/board.sh
# The calls of a board beside the same calls by hand: crates/conc_test_bench_board, as LLVM builds it, and
# bench/board.rs, which `rustc -O` builds, make 60 rounds of 64 requests: a claim whose hint wins, a poll that
# gives the permit, a post and a collect for each. With 1, 2 and 4 threads of hands, which claim, poll and post
# at the same time, RUNS runs (15 if RUNS is not set) of each, the two taken in turn. It prints the least
# nanoseconds of each call, and of ours the part of those by hand. A call's time has its part of two readings
# of the clock for each batch: 64, 32 or 16 calls of a thread, and 64 collects.
set -euo pipefail
here=$(cd "$(dirname "$0")/.." && pwd)
work=${BENCH_WORK:-$(mktemp -d)}
runs=${RUNS:-15}
ours=$here/crates/conc_test_bench_board/out/conc_test_bench_board
hand=$work/board
if [ ! -x "$ours" ]; then
  # With no word the program ends with status 1.
  (cd "$here/crates/conc_test_bench_board" && rt run > "$work/build.log" 2>&1) || true
fi
[ -x "$ours" ] || { tail -40 "$work/build.log"; exit 1; }
rustc -O --edition 2021 -o "$hand" "$here/bench/board.rs"
least() { # FILE: the least of each column
  awk '{ for (i = 1; i <= NF; i++) if (NR == 1 || $i < best[i]) best[i] = $i }
       END { for (i = 1; i <= NF; i++) printf "%s ", best[i] }' "$1"
}
for threads in 1 2 4; do
  : > "$work/ours" ; : > "$work/hand"
  for _ in $(seq "$runs"); do
    "$ours" "$threads" >> "$work/ours"
    "$hand" "$threads" >> "$work/hand"
  done
  echo "$(least "$work/ours") $(least "$work/hand")" | awk -v t="$threads" '{
    split("claim poll post collect", name)
    for (i = 1; i <= 4; i++)
      printf "%d threads: %-7s %6.1f ns, by hand %6.1f ns, ratio %.2f\n", t, name[i], $i, $(i + 4), $i / $(i + 4)
  }'
done
