#!/usr/bin/env bash
# bench/repeat.sh [FILE]
# The time in which a file of repeats in memory is expanded to its script in memory: by conc_repeat, and by a program by hand
# on the crates csv and jiff, whose code is below. FILE is a file of repeats without faults; by default one of 64 records and
# 4,096 submissions is written. Both programs are built here: conc_repeat's by a small crate in a copy of the repository, as LLVM
# builds it, the other by cargo. Each expands the file REPEATS times (200 if REPEATS is not set); the time of REPEATS expansions
# less that of none, divided by REPEATS, is the time of one. It prints the least of fifteen such figures in milliseconds, the two
# taken in turn, and their ratio, and ends with 1 where the two scripts are not the same.
# CRATES is a folder with the sources of csv and jiff and what they need, as Debian's librust-csv-dev and librust-jiff-dev put it
# into /usr/share/cargo/registry; if it is not set, cargo fetches them.
set -euo pipefail
here=$(cd "$(dirname "$0")/.." && pwd)
work=${BENCH_WORK:-$(mktemp -d)}
repeats=${REPEATS:-200}
ours=$work/copy/crates/bench_repeat/out/bench_repeat
hand=$work/hand/target/release/hand
mkdir -p "$work"
if [ $# -gt 0 ]; then
  cp "$1" "$work/repeats.csv"
else
  {
    echo from,every,unit,times,what,user,priority,domain,argument
    for n in $(seq 64); do
      case $((n % 4)) in 0) unit=hours ;; 1) unit=days ;; 2) unit=weeks ;; 3) unit=months ;; esac
      printf '2025-%02d-%02dT%02d:%02d:00,%d,%s,64,Ledger%d,"Bell, Ann",%d,,EUR-%d\n' \
        $((n % 12 + 1)) $((n % 28 + 1)) $((n % 24)) $((n % 60)) $((n % 5 + 1)) "$unit" "$n" "$n" "$n"
    done
  } > "$work/repeats.csv"
fi
if [ ! -x "$ours" ]; then
  mkdir -p "$work/copy/crates/bench_repeat/src"
  cp -r "$here/crates" "$here/crates.txt" "$here/HANDLES" "$work/copy/" 2>/dev/null || true
  echo 'bench_repeat: conc_repeat conc_types' >> "$work/copy/crates.txt"
  cat > "$work/copy/crates/bench_repeat/src/main.rt" <<'R'
//! Expands the file repeats.csv so many times, and prints the last script.
#![tactic(auto)]

use conc_repeat::expand;
use std::alloc::Global;
use std::env;
use std::fs;
use std::io::{self, Write};
use std::process::ExitCode;

fn words(rt: &HostRuntime) -> io::Result<Vec<String>> {
    let mut words = Vec::new(rt.alloc());
    for word in env::args(rt)? {
        words.push(word)?;
    }
    Ok(words)
}

fn run(alloc: Global, bytes: &[u8], repeats: u32) -> Option<Vec<u8>> {
    let mut script = Vec::new(alloc);
    for _ in 0..repeats {
        script = expand(alloc, bytes).ok()?;
    }
    Some(script)
}

fn main(rt: HostRuntime) -> ExitCode {
    let Ok(words) = words(&rt) else {
        return ExitCode::from(1);
    };
    let Some(word) = words.get(1) else {
        return ExitCode::from(2);
    };
    let Ok(repeats) = word.as_str().parse::<u32>() else {
        return ExitCode::from(2);
    };
    let Ok(bytes) = fs::read(&rt, "repeats.csv") else {
        return ExitCode::from(3);
    };
    let Some(script) = run(rt.alloc(), &bytes, repeats) else {
        return ExitCode::from(4);
    };
    let _written = rt.stdout().write_all(&script);
    ExitCode::from(0)
}
R
  (cd "$work/copy/crates/bench_repeat" && rt run > "$work/build.log" 2>&1) || true
fi
[ -x "$ours" ] || { tail -40 "$work/build.log"; exit 1; }
if [ ! -x "$hand" ]; then
  mkdir -p "$work/hand/src" "$work/hand/.cargo"
  cat > "$work/hand/Cargo.toml" <<'T'
[package]
name = "hand"
version = "0.1.0"
edition = "2021"

[dependencies]
csv = "1"
jiff = { version = "*", default-features = false, features = ["std"] }

[profile.release]
opt-level = 3
lto = true
T
  if [ -n "${CRATES:-}" ]; then
    printf '[source.crates-io]\nreplace-with = "here"\n[source.here]\ndirectory = "%s"\n' "$CRATES" > "$work/hand/.cargo/config.toml"
  fi
  cat > "$work/hand/src/main.rs" <<'R'
use csv::{ByteRecord, Reader, Writer};
use jiff::{civil::DateTime, Span};
use std::error::Error;
use std::fmt::Write as _;
use std::io::Write as _;

type Result<T> = std::result::Result<T, Box<dyn Error>>;

const MOST: usize = 4096;
const HEADER: [&str; 8] = ["at", "do", "what", "user", "priority", "start", "domain", "argument"];
const FIELDS: [&str; 9] = ["from", "every", "unit", "times", "what", "user", "priority", "domain", "argument"];

fn number(field: &[u8], most: i64) -> Result<i64> {
    let n: i64 = std::str::from_utf8(field)?.parse()?;
    if (1..=most).contains(&n) { Ok(n) } else { Err("out of range".into()) }
}

fn name(field: &[u8]) -> Result<()> {
    let name = std::str::from_utf8(field)?;
    if (1..=64).contains(&name.chars().count()) && !name.chars().any(char::is_control) { Ok(()) } else { Err("no name".into()) }
}

fn moments(record: &ByteRecord) -> Result<Vec<DateTime>> {
    let from: DateTime = std::str::from_utf8(&record[0])?.parse()?;
    let (every, times) = (number(&record[1], 1000)?, number(&record[3], 4096)?);
    name(&record[4])?;
    name(&record[5])?;
    if !record[6].is_empty() {
        number(&record[6], 99)?;
    }
    if !record[7].is_empty() {
        name(&record[7])?;
    }
    (0..times)
        .map(|k| {
            let n = k * every;
            let span = match &record[2] {
                b"hours" => Span::new().try_hours(n)?,
                b"days" => Span::new().try_days(n)?,
                b"weeks" => Span::new().try_weeks(n)?,
                b"months" => Span::new().try_months(n)?,
                _ => return Err("no unit".into()),
            };
            Ok(from.checked_add(span)?)
        })
        .collect()
}

fn expand(bytes: &[u8]) -> Result<Vec<u8>> {
    let mut reader = Reader::from_reader(bytes);
    if reader.headers()? != &FIELDS[..] {
        return Err("no header".into());
    }
    let (mut records, mut commands) = (Vec::new(), Vec::new());
    for record in reader.byte_records() {
        let record = record?;
        let at = moments(&record)?;
        if commands.len() + at.len() > MOST {
            return Err("too many".into());
        }
        commands.extend(at.into_iter().map(|at| (at, records.len())));
        records.push(record);
    }
    commands.sort_by_key(|(at, _)| *at);
    let mut writer = Writer::from_writer(Vec::new());
    writer.write_record(HEADER)?;
    let mut moment = String::new();
    for (at, n) in commands {
        let record = &records[n];
        moment.clear();
        write!(moment, "{at}")?;
        writer.write_record([moment.as_bytes(), b"submit", &record[4], &record[5], &record[6], b"", &record[7], &record[8]])?;
    }
    Ok(writer.into_inner()?)
}

fn main() -> Result<()> {
    let repeats: u32 = std::env::args().nth(1).ok_or("how often?")?.parse()?;
    let bytes = std::fs::read("repeats.csv")?;
    let mut script = Vec::new();
    for _ in 0..repeats {
        script = expand(&bytes)?;
    }
    std::io::stdout().write_all(&script)?;
    Ok(())
}
R
  (cd "$work/hand" && cargo build --release > "$work/cargo.log" 2>&1) || { tail -40 "$work/cargo.log"; exit 1; }
fi
cd "$work"
"$ours" 1 > ours.csv
"$hand" 1 > hand.csv
cmp ours.csv hand.csv
python3 - "$repeats" "$ours" "$hand" <<'P'
import subprocess, sys, time

repeats, programs = int(sys.argv[1]), sys.argv[2:]


def seconds(program, times):
    begun = time.monotonic()
    subprocess.run([program, str(times)], stdout=subprocess.DEVNULL, check=True)
    return time.monotonic() - begun


least = [float('inf')] * len(programs)
for _ in range(15):
    for n, program in enumerate(programs):
        none = seconds(program, 0)
        least[n] = min(least[n], (seconds(program, repeats) - none) * 1000 / repeats)
print('conc_repeat %.3f ms, by hand %.3f ms: %.2f' % (least[0], least[1], least[0] / least[1]))
P
