#!/bin/sh
# What the journal costs on a disk: bench/journal.sh FOLDER [PEER]
# In FOLDER, five times one after the other: seconds for 2,000 appends by conc_test_bench_append, as LLVM builds it, and by
# PEER FILE 2000 journal, another program that makes the same writes and syncs; then seconds to read a journal of
# 1,048,576 records from the page cache, and of cat on the same file.
folder=$(cd "${1:?name a folder on the disk}" && pwd) || exit 1
peer=$2
top=$(cd "$(dirname "$0")/.." && pwd) || exit 1
program=$top/crates/conc_test_bench_append/out/conc_test_bench_append
[ -x "$program" ] || (cd "$top/crates/conc_test_bench_append" && rt run > /dev/null)
[ -x "$program" ] || { echo "conc_test_bench_append could not be built" >&2; exit 1; }
room=$(mktemp -d "$folder/journal.XXXXXX") || exit 1
trap 'rm -rf "$room"' EXIT

# seconds WORDS..: how long a command takes
seconds() {
  start=$(date +%s.%N)
  "$@" > /dev/null || exit 1
  end=$(date +%s.%N)
  echo "$end $start" | awk '{printf "%.3f", $1 - $2}'
}

for round in 1 2 3 4 5; do
  rm -f "$room/ours" "$room/peer"
  line="append 2000: conc $(seconds "$program" "$room/ours" 2000)"
  [ -z "$peer" ] || line="$line, peer $(seconds "$peer" "$room/peer" 2000 journal)"
  echo "$line"
done
memory=$(mktemp -d /dev/shm/journal.XXXXXX) || exit 1
"$program" "$memory/all" 1048576 > /dev/null
cp "$memory/all" "$room/all"
rm -rf "$memory"
for round in 1 2 3 4 5; do
  echo "read 1048576: conc $(seconds "$program" "$room/all" 0), cat $(seconds cat "$room/all")"
done
