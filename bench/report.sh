#!/usr/bin/env bash
# bench/report.sh TABLE [PEER ARGS..]
# Reads the table at TABLE and makes the report of one job over it, as LLVM builds it, outside the gate:
# a program that calls read_table and report is written into a copy of the repository, proved and built
# there, and run five times. It prints the median seconds and the greatest memory, and the same of the
# program PEER, if one is given; the two outputs must be the same.
# The job, by the environment: GROUP, SUM, and FILTERS, words `column test value`, three for each filter.
set -euo pipefail
table=$(realpath "$1"); shift
here=$(cd "$(dirname "$0")/.." && pwd)
work=${BENCH_WORK:-$(mktemp -d)}
if [ ! -x "$work/copy/crates/bench_report/out/bench_report" ]; then
  mkdir -p "$work/copy/crates/bench_report/src"
  cp -r "$here/crates" "$here/crates.txt" "$here/HANDLES" "$work/copy/" 2>/dev/null || true
  echo 'bench_report: conc_reports conc_tables conc_types' >> "$work/copy/crates.txt"
  cat > "$work/copy/crates/bench_report/src/main.rt" <<'R'
//! Makes one report: TABLE GROUP SUM, and then column, test and value of each filter.
#![tactic(auto)]

use conc_reports::report;
use conc_tables::read_table;
use conc_types::{Filter, Job, Name, Seq, Test, is_name, is_text};
use std::alloc::Global;
use std::env;
use std::fs;
use std::io::{self, Write};
use std::process::ExitCode;

fn name(alloc: Global, text: &str) -> Option<Name> {
    let bytes = text.as_bytes().to_vec(alloc).ok()?;
    if is_name(&bytes) { Some(Name::from_vec(bytes)) } else { None }
}

fn test(text: &str) -> Option<Test> {
    match text {
        "is" => Some(Test::Is),
        "is_not" => Some(Test::IsNot),
        "starts_with" => Some(Test::StartsWith),
        "above" => Some(Test::Above),
        "below" => Some(Test::Below),
        _ => None,
    }
}

fn filter(alloc: Global, column: &str, word: &str, value: &str) -> Option<Filter> {
    let column = name(alloc, column)?;
    let test = test(word)?;
    let value = value.as_bytes().to_vec(alloc).ok()?;
    if !is_text(200, &value) {
        return None;
    }
    Some(Filter { column, test, value: Seq::from_vec(value) })
}

fn job(alloc: Global, words: &[String]) -> Option<Job> {
    let mut filters = Vec::new(alloc);
    for three in words.get(4..)?.chunks_exact(3) {
        if let [column, word, value] = three {
            filters.push(filter(alloc, column.as_str(), word.as_str(), value.as_str())?).ok()?;
        }
    }
    if filters.len() > 16 {
        return None;
    }
    Some(Job {
        table: name(alloc, "t.csv")?,
        filters: Seq::from_vec(filters),
        group: Some(name(alloc, words.get(2)?.as_str())?),
        sum: Some(name(alloc, words.get(3)?.as_str())?),
        warn_over: None,
        error_over: None,
    })
}

fn words(rt: &HostRuntime) -> io::Result<Vec<String>> {
    let mut words = Vec::new(rt.alloc());
    for word in env::args(rt)? {
        words.push(word)?;
    }
    Ok(words)
}

fn main(rt: HostRuntime) -> ExitCode {
    let alloc = rt.alloc();
    let Ok(words) = words(&rt) else {
        return ExitCode::from(1);
    };
    let Some(job) = job(alloc, &words) else {
        return ExitCode::from(2);
    };
    let Some(path) = words.get(1) else {
        return ExitCode::from(2);
    };
    let Ok(bytes) = fs::read(&rt, path.as_str()) else {
        return ExitCode::from(3);
    };
    let Ok(table) = read_table(alloc, &bytes, 0) else {
        return ExitCode::from(4);
    };
    let Ok(made) = report(alloc, &job, b"", &table) else {
        return ExitCode::from(5);
    };
    let _written = rt.stdout().write_all(made.text.as_slice());
    ExitCode::from(0)
}
R
  (cd "$work/copy/crates/bench_report" && rt run > "$work/build.log" 2>&1) || true
fi
binary=$work/copy/crates/bench_report/out/bench_report
[ -x "$binary" ] || { tail -40 "$work/build.log"; exit 1; }
median() { sort -g | sed -n 3p; }
measure() { # NAME CMD..
  local what=$1; shift
  for _ in 1 2 3 4 5; do
    python3 - "$work/out.$what" "$@" <<'P'
import resource, subprocess, sys, time
with open(sys.argv[1], 'wb') as out:
    start = time.monotonic()
    code = subprocess.run(sys.argv[2:], stdout=out).returncode
    took = time.monotonic() - start
print('%.3f %d %d' % (took, resource.getrusage(resource.RUSAGE_CHILDREN).ru_maxrss // 1024, code))
P
  done > "$work/times.$what"
  printf '%-10s %s s, %s MB\n' "$what" "$(cut -d' ' -f1 "$work/times.$what" | median)" "$(cut -d' ' -f2 "$work/times.$what" | sort -n | tail -1)"
}
# shellcheck disable=SC2086
measure conc "$binary" "$table" "$GROUP" "$SUM" ${FILTERS:-}
if [ $# -gt 0 ]; then
  measure peer "$@"
  cmp "$work/out.conc" "$work/out.peer" && echo same
fi
