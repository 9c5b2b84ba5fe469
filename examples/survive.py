"""What the runs of examples/survive left, read from the bytes of their files as docs/FORMATS.md tells.

survive.py judge FOLDER OUT            the journal in FOLDER holds the events that a run printed into the file OUT, and
                                       the stamps of the script's commands; the spool reaches to the end of their
                                       reports
survive.py stop PROGRAM EXAMPLE ROOM   ends runs of an example at 30 moments, each in a folder of ROOM, and judges what
                                       they left and what the next run makes of it: first runs without workers, and
                                       then runs with 4 threads, each continued with another number of threads

It ends with status 1 at the first difference.
"""

import csv
import hashlib
import io
import math
import shutil
import struct
import subprocess
import sys
import time
from collections import namedtuple
from datetime import datetime, timedelta
from pathlib import Path

try:
    import tomllib
except ImportError:  # before Python 3.11 no stamp is made here
    tomllib = None

STOPS = 30
# In seconds: a shorter run is made longer, so that the moments fall within it, and all runs together take no longer.
LONG_ENOUGH = 0.5
AT_MOST = 90.0
# So many threads has a run that is ended, and one of these has the run that goes on from what it left.
THREADS = 4
OTHER_THREADS = (0, 1, 2, 8, 32)
MOST_SUBMISSIONS = 1200
LAST_READING = "2025-04-02T10:00:00\n"

HEADER = 64
VERSION = 63
MAGIC = b"conc journal 1\n"
WORDS = ("submit", "hold", "unhold", "cancel", "terminate")
# gate, kind, outcome, 0, first, second, wide, length, 0
RECORD = struct.Struct(">BBBBIIQI8s")
OUTCOMES = ("", "Normal", "Warning", "Error", "Terminated")
# Each kind of event, and the fields that its record fills.
KINDS = {
    1: ("tick", {"wide"}),
    2: ("do", {"first", "wide"}),
    3: ("open", {"first"}),
    4: ("stage", {"first", "second"}),
    5: ("close", {"outcome", "first"}),
    6: ("let", {"first"}),
    7: ("start", {"first", "second"}),
    8: ("end", {"outcome", "first", "wide", "length"}),
    9: ("resume", set()),
    10: ("interrupt", {"first"}),
}

Event = namedtuple("Event", "word outcome first second wide length")
Kept = namedtuple("Kept", "digest events stamps spool")
Whole = namedtuple("Whole", "kept text lines places duration")


class Difference(Exception):
    """Something is not as it has to be."""


def demand(holds, what):
    if not holds:
        raise Difference(what)


# ---- the files


def event_of(record, number):
    """The event that the 32 bytes of a record spell."""
    _, kind, outcome, zero, first, second, wide, length, rest = RECORD.unpack(record)
    event = Event(KINDS.get(kind, ("", set()))[0], outcome, first, second, wide, length)
    filled = KINDS.get(kind, ("", set()))[1]
    unfilled = [field for field in Event._fields[1:] if field not in filled and getattr(event, field)]
    ends_badly = event.word == "end" and ((outcome == 4) != (length == 0) or (outcome == 4 and wide))
    outcomes = {"end": range(1, 5), "close": range(1, 4)}.get(event.word, range(1))
    spelled = event.word and not (unfilled or ends_badly or zero or rest.strip(b"\0")) and outcome in outcomes
    demand(spelled, f"record {number} of the journal spells no event")
    return event


def read_journal(data):
    """The digest, the events and the stamps of a journal: no digest where it is not begun, and no stamps in version 1."""
    if len(data) <= 1 or data[0] == 0:
        return None, [], []
    demand(len(data) > HEADER and data[1:16] == MAGIC, "the file is no journal")
    events, stamps = [], []
    at = HEADER
    while data[at]:
        number = len(events) + 1
        demand(len(data) > at + RECORD.size, f"record {number} of the journal is cut off")
        event = event_of(data[at : at + RECORD.size], number)
        if event.word == "do":
            stamps.append(event.wide)
            event = event._replace(wide=0)
        events.append(event)
        at += RECORD.size
    return (data[16:VERSION], events, stamps) if data[VERSION] else (data[16:48], events, None)


def seconds_of(moment):
    return (datetime.fromisoformat(moment) - datetime(1, 1, 1)) // timedelta(seconds=1)


def coding_of(order, items):
    """The coding of a command, a record of the script."""
    at, word, what, user, priority, start, domain, argument = order
    coding = struct.pack(">QB", seconds_of(at), WORDS.index(word) + 1)
    if word != "submit":
        return coding + struct.pack(">I", int(what))
    coding += struct.pack(">BIBQ", *items[what], int(priority or 50), seconds_of(start or at))
    texts = (text.encode() for text in (user, domain or "Standard", argument))
    return coding + b"".join(struct.pack(">I", len(text)) + text for text in texts)


def stamps_of(folder):
    """The stamps of the commands of a.csv."""
    setup = tomllib.loads((folder / "a.toml").read_text())
    items = {}
    for kind, key in enumerate(("program", "set"), start=1):
        items.update((entry["name"], (kind, number)) for number, entry in enumerate(setup.get(key, ())))
    last = bytes(32)
    stamps = []
    for order in list(csv.reader((folder / "a.csv").read_text().splitlines()))[1:]:
        last = hashlib.sha256(last + coding_of(order, items)).digest()
        stamps.append(int.from_bytes(last[:8], "big"))
    return stamps


def bytes_of(file):
    """The bytes of a file; none where there is no file."""
    return file.read_bytes() if file.exists() else b""


def read_kept(folder):
    """What the two files in a folder hold."""
    return Kept(*read_journal(bytes_of(folder / "conc.journal")), bytes_of(folder / "conc.spool"))


def reports_of(kept):
    """The event of each report and its text, in the order of the events."""
    reports = []
    used = 0
    for event in kept.events:
        if event.word == "end" and event.length:
            demand(event.wide == used, f"the report of request {event.first} begins at {event.wide} and not at {used}")
            used += event.length
            reports.append((event, kept.spool[event.wide : used]))
    demand(len(kept.spool) >= used, f"the spool has {len(kept.spool)} bytes of {used}")
    return reports


# ---- the printed history


def event_lines(text):
    """The lines of a printed history up to the line --."""
    lines = text.split("\n")
    demand("--" in lines, "the printed history has no line --")
    return lines[: lines.index("--")]


def line_of(event, places):
    """The line of an event. The journal counts places through all managers, and places tells how each is printed."""
    outcome = OUTCOMES[event.outcome]
    if event.word == "tick":
        return f"tick {(datetime(1, 1, 1) + timedelta(seconds=event.wide)).isoformat()}"
    if event.word == "stage":
        return f"stage {event.first} {event.second}"
    if event.word == "close":
        return f"close {event.first} {outcome}"
    if event.word == "start":
        return f"start {event.first} {places[event.second]}"
    if event.word == "end":
        return f"end {event.first} {outcome}" + (f" {event.wide} {event.length}" if event.length else "")
    return event.word if event.word == "resume" else f"{event.word} {event.first}"


def judge_lines(kept, lines, places):
    """Demands that the journal holds just the events of these lines; places learns how each place is printed."""
    held = len(kept.events)
    demand(held == len(lines), f"the journal holds {held} events, and {len(lines)} are printed")
    for number, (event, line) in enumerate(zip(kept.events, lines), start=1):
        if event.word == "start":
            places.setdefault(event.second, line.rpartition(" ")[2])
        wanted = line_of(event, places)
        demand(line == wanted, f"line {number} is printed as {line}, and the journal has {wanted}")
    demand(len(set(places.values())) == len(places), "two places are printed alike")


def judge_stamps(kept, folder):
    """Demands that the journal is of version 2 and has the stamps of the script's commands."""
    demand(kept.stamps is not None, "the journal is of version 1")
    if tomllib:
        stamps = stamps_of(folder)
        wanted = [stamps[event.first - 1] for event in kept.events if event.word == "do"]
        demand(kept.stamps == wanted, "the commands have other stamps than in the script")


def judge(folder, out):
    kept = read_kept(folder)
    judge_lines(kept, event_lines(out.read_text()), {})
    judge_stamps(kept, folder)
    reports_of(kept)


# ---- runs that are ended


def words_of(program, threads=0):
    return [program, "run", "a.toml", "a.csv", "a.clock", "--threads", str(threads)]


def run(words, folder):
    """Runs the program to its end, and gives what it prints."""
    done = subprocess.run(words, cwd=folder, stdin=subprocess.DEVNULL, capture_output=True, timeout=120)
    first_line = done.stderr.decode(errors="replace").partition("\n")[0]
    demand(done.returncode == 0, f"{words[1]} ended with status {done.returncode}: {first_line}")
    return done.stdout.decode()


def stop(words, folder, delay):
    """Starts the program and kills it after this delay. Gives how long it took where it was faster."""
    began = time.monotonic()
    nothing = subprocess.DEVNULL
    program = subprocess.Popen(words, cwd=folder, stdin=nothing, stdout=nothing, stderr=nothing)
    try:
        program.wait(delay)
        return time.monotonic() - began
    except subprocess.TimeoutExpired:
        program.kill()
        program.wait()
        return math.inf


def fresh(example, folder, changed):
    """A folder with the files of the example, and these texts in the place of some of them."""
    folder.mkdir()
    for file in example.iterdir():
        if file.suffix in (".toml", ".clock", ".csv"):
            shutil.copy(file, folder)
    for name, text in changed.items():
        (folder / name).write_bytes(text.encode())
    return folder


def lay_disks(example, folder):
    """Puts into the folder the disks that an older program left, where the example has such."""
    for disk in (example / "before").glob("conc.*"):
        shutil.copy(disk, folder)


def longer(example, count):
    """So many submissions more at the end of the script, each as an earlier one, and a last reading for them."""
    header, *commands = csv.reader((example / "a.csv").read_text().splitlines())
    submits = [command for command in commands if command[1] == "submit"]
    added = (submits[number % len(submits)] for number in range(count))
    script = io.StringIO(newline="")
    writer = csv.writer(script, lineterminator="\n")
    writer.writerows([header, *commands])
    writer.writerows([commands[-1][0], *submit[1:5], "", *submit[6:]] for submit in added)
    return {"a.csv": script.getvalue(), "a.clock": (example / "a.clock").read_text() + LAST_READING}


def run_whole(program, folder):
    """Runs the example in a fresh folder to its end, without a stop."""
    began = time.monotonic()
    text = run(words_of(program), folder)
    duration = time.monotonic() - began
    kept, lines, places = read_kept(folder), event_lines(text), {}
    judge_lines(kept, lines, places)
    return Whole(kept, text, lines, places, duration)


def made_by(program, folder):
    """What makes the report of each request: its program and its argument, which a member has of its set."""
    with open(folder / "a.csv", newline="") as script:
        arguments = iter([command[7] for command in csv.reader(script) if command[1] == "submit"])
    makers = {}
    for line in run([program, "plan", "a.toml", "a.csv"], folder).splitlines():
        request = line.split("\t")
        if request[3] == "0":
            argument = next(arguments)
        makers[int(request[0])] = (request[7], argument)
    return makers


def judge_reports(kept, makers, known):
    """Demands that reports with the same maker are the same; known holds each that was seen, with its outcome."""
    for event, text in reports_of(kept):
        made = (OUTCOMES[event.outcome], text)
        earlier = known.setdefault(makers[event.first], made)
        demand(earlier == made, f"the report of request {event.first} is another one")


def running_in(events):
    """The requests that were running after these events."""
    running = set()
    for event in events:
        if event.word == "start":
            running.add(event.first)
        elif event.word in ("end", "interrupt"):
            running.discard(event.first)
    return sorted(running)


def judge_left(left, whole):
    """Demands that a run which was ended left the first events of the whole run, and their reports."""
    demand(left.digest in (None, whole.kept.digest), "the digest is another one")
    demand(left.events == whole.kept.events[: len(left.events)], "the events are not those of the whole run")
    used = sum(len(text) for _, text in reports_of(left))
    demand(left.spool[:used] == whole.kept.spool[:used], "the spool has not the reports of the events")


def judge_begin(left, lines):
    """Demands that behind the events that were left stands one resume, and that what ran is interrupted."""
    count = len(left.events)
    begin = ["resume", *(f"interrupt {request}" for request in running_in(left.events))]
    demand(lines[count : count + len(begin)] == begin, f"behind event {count} does not stand {', '.join(begin)}")
    demand(lines[count:].count("resume") == 1, f"behind event {count} stands more than one resume")


def judge_next(left, kept, text, whole):
    """Demands that the next run went on from what was left."""
    lines, count = event_lines(text), len(left.events)
    judge_lines(kept, lines, whole.places)
    if count == 0:
        demand(text == whole.text, "the next run did not begin anew")
        return
    demand(lines[:count] == whole.lines[:count], "the history does not begin with the events that were left")
    judge_begin(left, lines)


def stop_and_go_on(program, folder, delay, whole):
    """Ends a run after this delay, and runs again. Gives what was left, what is kept then, and the run's own end."""
    took = stop(words_of(program), folder, delay)
    left = read_kept(folder)
    judge_left(left, whole)
    text = run(words_of(program), folder)
    kept = read_kept(folder)
    judge_stamps(kept, folder)
    judge_next(left, kept, text, whole)
    return left, kept, took


def check(program, folder, text, count):
    """Demands that the check of a history calls it lawful and finished, with so many events."""
    (folder / "a.history").write_text(text)
    found = run([program, "check", "a.toml", "a.csv", "a.clock", "a.history"], folder)
    demand(found == f"lawful {count} finished\n", f"the check says {found.rstrip()}")


def stop_and_go_on_in_threads(program, folder, delay, whole, others):
    """The same for a run with threads, whose history may be any lawful one; the next run has so many other threads."""
    took = stop(words_of(program, THREADS), folder, delay)
    left = read_kept(folder)
    demand(left.digest in (None, whole.kept.digest), "the digest is another one")
    reports_of(left)
    text = run(words_of(program, others), folder)
    kept, lines, count = read_kept(folder), event_lines(text), len(left.events)
    judge_stamps(kept, folder)
    judge_lines(kept, lines, whole.places)
    demand(kept.events[:count] == left.events, "the history does not begin with the events that were left")
    if count > 0:
        judge_begin(left, lines)
    check(program, folder, text, len(lines))
    return left, kept, took


def go_on(program, folder, threads, makers, known):
    """Demands that the next run goes on from what was left, and loses nothing. Gives how many events were left."""
    left = read_kept(folder)
    judge_reports(left, makers, known)
    text = run(words_of(program, threads), folder)
    kept, lines = read_kept(folder), event_lines(text)
    count = len(left.events)
    judge_stamps(kept, folder)
    judge_lines(kept, lines, {})
    demand(kept.events[:count] == left.events, "the history does not begin with the events that were left")
    ended = {event.first for event in left.events if event.word == "end"}
    again = [event.first for event in kept.events[count:] if event.word == "start" and event.first in ended]
    demand(not again, f"requests {again} start again")
    if count > 0:
        judge_begin(left, lines)
    judge_reports(kept, makers, known)
    check(program, folder, text, len(lines))
    return count


def stop_often(example, room, changed, duration, stop_one):
    """Ends runs at moments of this duration, each in a fresh folder, and judges what the next run keeps. Gives how often
    and where the stops fell."""
    stops = max(1, min(STOPS, int(AT_MOST / duration)))
    counts, longest = [0, 0, 0], duration
    for number in range(stops):
        folder = fresh(example, room / str(number), changed)
        left, took = stop_one(number, folder, longest * (number + 0.5) / stops)
        longest = min(longest, took)
        counts[(len(left.events) > 0) + (took < math.inf)] += 1
        shutil.rmtree(folder)
    demand(counts[1] > 0, f"none of the {stops} stops fell between the first event and the last")
    fell = f"{counts[0]} before the first event, {counts[1]} between, {counts[2]} behind the end"
    return f"{stops} moments of {duration:.2f} s", fell


def stop_all(program, example, room):
    changed = {}
    whole = run_whole(program, fresh(example, room / "short", changed))
    demand(whole.text == (example / "expected.txt").read_text(), "the history is not as in expected.txt")
    if whole.duration < LONG_ENOUGH:
        changed = longer(example, min(MOST_SUBMISSIONS, int(60 * LONG_ENOUGH / whole.duration)))
        whole = run_whole(program, fresh(example, room / "long", changed))
    makers, known = made_by(program, fresh(example, room / "plan", changed)), {}
    judge_reports(whole.kept, makers, known)

    def alone(_, folder, delay):
        left, kept, took = stop_and_go_on(program, folder, delay, whole)
        judge_reports(kept, makers, known)
        return left, took

    def in_threads(number, folder, delay):
        others = OTHER_THREADS[number % len(OTHER_THREADS)]
        left, kept, took = stop_and_go_on_in_threads(program, folder, delay, whole, others)
        judge_reports(kept, makers, known)
        return left, took

    moments, fell = stop_often(example, room, changed, whole.duration, alone)
    print(f"month_end, ended at {moments} and {len(whole.lines)} events: {fell}; each next run goes on from what was left")
    folder = fresh(example, room / "threads", changed)
    began = time.monotonic()
    text = run(words_of(program, THREADS), folder)
    duration = time.monotonic() - began
    check(program, folder, text, len(event_lines(text)))
    moments, fell = stop_often(example, room, changed, duration, in_threads)
    print(f"month_end with {THREADS} threads, ended at {moments}: {fell}; each next run, with another number of threads, goes on")


def main(words):
    try:
        if words[0] == "judge":
            judge(Path(words[1]), Path(words[2]))
        else:
            stop_all(words[1], Path(words[2]), Path(words[3]))
    except (Difference, OSError, subprocess.TimeoutExpired) as difference:
        sys.exit(f"survive: {difference}")


if __name__ == "__main__":
    main(sys.argv[1:])
