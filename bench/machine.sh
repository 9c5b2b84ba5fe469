#!/usr/bin/env bash
# bench/machine.sh FOLDER.. [-- PEER]
# For each FOLDER with the files a.toml, a.csv, a.clock and the tables that a.toml names: the time of a run
# without workers in memory, as LLVM builds it, outside the gate, reading of files and making of the plan, with what it
# keeps of columns, apart, and without journal and spool. A program that calls the readers and make_plan, and goes from event to
# event by the machine and next_event, is written into a copy of the repository, proved and built there; it
# makes the run REPEATS times (20 if REPEATS is not set), and the time of REPEATS
# runs less that of none, divided by REPEATS, is the time of one. It prints the least of fifteen such
# figures in milliseconds, the greatest memory in KB, and the number of events.
# PEER is a program of the reader's own: called as PEER FOLDER, it prints the milliseconds of its loop as the
# last line on standard error; the least of fifteen is printed beside, the two taken in turn.
set -euo pipefail
folders=() peer=
while [ $# -gt 0 ]; do
  if [ "$1" = -- ]; then peer=${2:-}; break; fi
  folders+=("$1"); shift
done
here=$(cd "$(dirname "$0")/.." && pwd)
work=${BENCH_WORK:-$(mktemp -d)}
repeats=${REPEATS:-20}
binary=$work/copy/crates/bench_machine/out/bench_machine
if [ ! -x "$binary" ]; then
  mkdir -p "$work/copy/crates/bench_machine/src"
  cp -r "$here/crates" "$here/crates.txt" "$here/HANDLES" "$work/copy/" 2>/dev/null || true
  echo 'bench_machine: conc_data_columns conc_machine conc_outside conc_plan conc_run_choice conc_script conc_setup conc_tables conc_types' >> "$work/copy/crates.txt"
  cat > "$work/copy/crates/bench_machine/src/main.rt" <<'R'
//! Runs a plan without workers, in memory, so many times: REPEATS, in the folder with its files.
#![tactic(auto)]

use conc_data_columns::keep_columns;
use conc_run_choice::next_event;
use conc_machine::Machine;
use conc_plan::make_plan;
use conc_script::{read_clock, read_script};
use conc_setup::read_setup;
use conc_tables::read_table;
use conc_types::{Event, Plan, Readings, Seq, Setup, Table};
use std::alloc::Global;
use std::env;
use std::fs;
use std::io::{self, Write};
use std::process::ExitCode;

fn words(rt: &HostRuntime) -> io::Result<Vec<String>> {
    let mut words = Vec::new(rt.alloc());
    for word in env::args(rt)? {
        words.push(word)?;
    }
    Ok(words)
}

fn tables(rt: &HostRuntime, setup: &Setup) -> Option<Vec<Table>> {
    let alloc = rt.alloc();
    let mut tables = Vec::new(alloc);
    let mut number: u32 = 0;
    for name in setup.tables.as_slice() {
        let path = std::str::from_utf8(name.as_bytes()).ok()?;
        let bytes = fs::read(rt, path).ok()?;
        tables.push(read_table(alloc, &bytes, number).ok()?).ok()?;
        number = number.checked_add(1)?;
    }
    Some(tables)
}

fn inputs(rt: &HostRuntime) -> Option<(Plan, Readings)> {
    let alloc = rt.alloc();
    let setup = read_setup(alloc, &fs::read(rt, "a.toml").ok()?).ok()?;
    let script = read_script(alloc, &fs::read(rt, "a.csv").ok()?, &setup).ok()?;
    let readings = read_clock(alloc, &fs::read(rt, "a.clock").ok()?).ok()?;
    let tables = tables(rt, &setup)?;
    if tables.len() != setup.tables.len() {
        return None;
    }
    let plan = make_plan(alloc, setup, script, Seq::from_vec(tables)).ok()?;
    Some((keep_columns(alloc, plan), readings))
}

fn history(alloc: Global, plan: &Plan, readings: &Readings) -> Option<Vec<Event>> {
    let mut events = Vec::new(alloc);
    let mut machine = Machine::new(alloc, plan).ok()?;
    machine.take_readings(alloc, readings).ok()?;
    for _ in 0..u32::MAX {
        let Some(next) = next_event(alloc, &machine).ok()? else {
            return Some(events);
        };
        machine.apply(next.event);
        events.push(next.event).ok()?;
    }
    None
}

fn run(alloc: Global, plan: &Plan, readings: &Readings, repeats: u32) -> Option<usize> {
    let mut events = 0;
    for _ in 0..repeats {
        events = history(alloc, plan, readings)?.len();
    }
    Some(events)
}

fn main(rt: HostRuntime) -> ExitCode {
    let Ok(words) = words(&rt) else {
        return ExitCode::from(1);
    };
    let Some(word) = words.get(1) else {
        return ExitCode::from(2);
    };
    let Ok(repeats) = word.as_str().parse::<u32>() else {
        return ExitCode::from(2);
    };
    let Some((plan, readings)) = inputs(&rt) else {
        return ExitCode::from(3);
    };
    let Some(events) = run(rt.alloc(), &plan, &readings, repeats) else {
        return ExitCode::from(4);
    };
    let _written = write!(rt.stdout(), "{events}\n");
    ExitCode::from(0)
}
R
  (cd "$work/copy/crates/bench_machine" && rt run > "$work/build.log" 2>&1) || true
fi
[ -x "$binary" ] || { tail -40 "$work/build.log"; exit 1; }
timed() { # FOLDER REPEATS: seconds, and what it printed
  (cd "$1" && python3 - "$binary" "$2" <<'P'
import subprocess, sys, time
start = time.monotonic()
made = subprocess.run(sys.argv[1:], stdout=subprocess.PIPE, check=True)
print('%.6f %s' % (time.monotonic() - start, made.stdout.decode().strip()))
P
  )
}
memory() { # FOLDER: the greatest memory of a run in KB
  (cd "$1" && /usr/bin/time -f %M "$binary" 1 2>&1 >/dev/null | tail -1)
}
for folder in "${folders[@]}"; do
  ours=() peers=()
  for _ in $(seq 15); do
    none=$(timed "$folder" 0) many=$(timed "$folder" "$repeats")
    ours+=("$(echo "$none $many" | awk -v n="$repeats" '{printf "%.3f", ($3 - $1) * 1000 / n}')")
    [ -z "$peer" ] || peers+=("$("$peer" "$folder" 2>&1 >/dev/null | tail -1)")
  done
  line="$folder: $(printf '%s\n' "${ours[@]}" | sort -g | head -1) ms, $(memory "$folder") KB, $(echo "$many" | cut -d' ' -f2) events"
  [ -z "$peer" ] || line="$line; by hand $(printf '%s\n' "${peers[@]}" | sort -g | head -1) ms"
  echo "$line"
done
