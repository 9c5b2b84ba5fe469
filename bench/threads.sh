#!/usr/bin/env bash
# bench/threads.sh [PEER]
# The time of REPORTS reports (64) over one table of ROWS rows (200000) with no worker and with 1, 2 and 4 (THREADS), in the
# folder FOLDER, or in a new one under /dev/shm, where a sync costs nothing. From each run's time that of a run
# with an empty script is taken away, which reads the same files. It prints the least of REPEATS runs (9) in seconds, all
# kinds in turn, and the speed-up over one worker.
# PEER is a program of the reader's own: called as PEER TABLE THREADS REPORTS it makes these reports over a table
# that it keeps, and prints the seconds that they took as the second word of its line.
set -euo pipefail
peer=${1:-}
here=$(cd "$(dirname "$0")/.." && pwd)
conc=${CONC:-$here/crates/conc/out/conc}
reports=${REPORTS:-64} rows=${ROWS:-200000} repeats=${REPEATS:-9} threads=${THREADS:-1 2 4}
folder=${FOLDER:-$(mktemp -d /dev/shm/threads.XXXXXX)}
[ -n "${FOLDER:-}" ] || trap 'rm -rf "$folder"' EXIT
mkdir -p "$folder"
rm -f "$folder"/whole.* "$folder"/empty.* "$folder"/peer.*

awk -v rows="$rows" 'BEGIN {
  print "account,dept,cents"
  seed = 7
  for (i = 0; i < rows; i++) {
    seed = (seed * 1103515245 + 12345) % 2147483648
    printf "A%d,D%d,%d\n", int(seed / 65536) % 500, i % 10, int(seed / 4096) % 90000 + 1
  }
}' > "$folder/t.csv"
cat > "$folder/a.toml" <<'T'
tables = ["t.csv"]
[[program]]
name = "R"
table = "t.csv"
filter = [{ column = "dept", test = "is_not", value = "$" }, { column = "cents", test = "above", value = "0" }]
group = "account"
sum = "cents"
[[manager]]
name = "M"
shift = [{ places = 4 }]
T
head=at,do,what,user,priority,start,domain,argument
echo "$head" > "$folder/empty.csv"
{
  echo "$head"
  for ((i = 0; i < reports; i++)); do echo "2025-03-03T09:00:00,submit,R,ann,,,,D$((i % 10))"; done
} > "$folder/a.csv"
echo 2025-03-03T09:00:00 > "$folder/a.clock"

# time_of SCRIPT THREADS: the seconds of one run.
time_of() {
  (cd "$folder" && rm -f conc.journal conc.spool)
  local begun ended
  begun=$(date +%s%N)
  (cd "$folder" && "$conc" run a.toml "$1" a.clock --threads "$2" > /dev/null)
  ended=$(date +%s%N)
  awk -v t="$((ended - begun))" 'BEGIN { printf "%.4f\n", t / 1e9 }'
}

# Each kind of run in turn, so that what else the machine does meets all of them.
for ((n = 0; n < repeats; n++)); do
  for count in 0 $threads; do
    time_of a.csv "$count" >> "$folder/whole.$count"
    time_of empty.csv "$count" >> "$folder/empty.$count"
    [ -z "$peer" ] || [ "$count" = 0 ] || "$peer" "$folder/t.csv" "$count" "$reports" | cut -d ' ' -f 2 >> "$folder/peer.$count"
  done
done

least() { sort -n "$1" | head -n 1; }

# tell NAME SECONDS FIRST: a line, with the speed-up over the first.
tell() {
  awk -v name="$1" -v t="$2" -v first="$3" 'BEGIN { printf "%-28s %8.3f s  %5.2f\n", name, t, first / t }'
}

echo "$reports reports over $rows rows, in $folder"
first=
for count in $threads; do
  [ -n "$peer" ] || continue
  seconds=$(least "$folder/peer.$count")
  tell "$(basename "$peer"), $count threads" "$seconds" "${first:=$seconds}"
done
first=
for count in $threads 0; do
  seconds=$(awk -v a="$(least "$folder/whole.$count")" -v b="$(least "$folder/empty.$count")" 'BEGIN { print a - b }')
  tell "conc --threads $count" "$seconds" "${first:=$seconds}"
done
