#!/bin/sh
# What watchers cost a run: bench/watch.sh INPUTS ROOM
# INPUTS is a folder with a.toml, a.csv, a.clock and the tables of the setup; the runs are made in a new folder in ROOM. In turn,
# without watchers and with two, without workers and with 4 threads: the seconds of each run, the median of REPS (9), the ratio of the
# two medians, and the most memory of a run with watchers, in kilobytes. The program is crates/conc/out/conc, or what CONC names.
inputs=$(cd "${1:?name a folder with the inputs}" && pwd) || exit 1
room=$(mktemp -d "${2:?name a folder for the runs}/watch.XXXXXX") || exit 1
trap 'rm -rf "$room"' EXIT
top=$(cd "$(dirname "$0")/.." && pwd) || exit 1
program=${CONC:-$top/crates/conc/out/conc}
[ -x "$program" ] || { echo "$program is lacking: rt ci builds it" >&2; exit 1; }
for file in "$inputs"/*; do
  case $file in *.toml | *.csv | *.clock) cp "$file" "$room/" || exit 1 ;; esac
done

# once THREADS WATCHERS: makes a run, and adds its seconds and its memory to the file of its kind
once() {
  rm -f "$room/conc.journal" "$room/conc.spool"
  start=$(date +%s.%N)
  (cd "$room" && exec /usr/bin/time -o "$room/memory" -f %M "$program" run a.toml a.csv a.clock --threads "$1" --watch "$2") \
    > /dev/null || exit 1
  end=$(date +%s.%N)
  echo "$end $start $(cat "$room/memory")" | awk '{printf "%.3f %d\n", $1 - $2, $3}' >> "$room/$1.$2"
}

median() {
  cut -d' ' -f1 "$1" | sort -n | awk '{list[NR] = $1} END {print list[int((NR + 1) / 2)]}'
}

for threads in 0 4; do
  for round in $(seq "${REPS:-9}"); do
    once "$threads" 0
    once "$threads" 2
  done
  without=$(median "$room/$threads.0") with=$(median "$room/$threads.2")
  memory=$(cut -d' ' -f2 "$room/$threads.2" | sort -n | tail -n 1)
  echo "$threads threads: $without s without watchers, $with s with two," \
    "$(echo "$with $without" | awk '{printf "%.2f", $1 / $2}') times; $memory KB"
done
