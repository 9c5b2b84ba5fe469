"""A copy of this repository in which edits are tried, for trials/run and trials/mutate.

Of Python it needs 3.8 or later, as rt does, and its standard library alone. The copy stands in the folder that TRIALS_ROOM
names, else in ~/.cache/conc-trials. It is kept, so that a second trial begins with what the first one proved; it takes about
2 GB, beside what the benches keep (trials/batches.py: 20 to 200 MB for each crate tried), and may be removed at any time.
TRIALS_JOBS says how many proofs are done at once, else as many as there are processors. The files are copied as they stand in
the checkout, committed or not.
"""

import fcntl
import os
import re
import shutil
import subprocess
import sys
import threading
from collections import namedtuple
from concurrent.futures import ThreadPoolExecutor, as_completed
from pathlib import Path

ROOT = Path(__file__).resolve().parent.parent
# What rt makes in a crate's folder, and what is tried there: both belong to the copy.
OWN = ("out", "must-fail")
REFUSED, LIMIT, LET_THROUGH, BAD, NOT_TRIED = "refused", "refused by a limit", "let through", "bad edit", "not tried"
SAID = {"refused": REFUSED, "NOT REFUSED": LET_THROUGH, "BAD EDIT": BAD, "NOT TRIED": NOT_TRIED}
LINE = re.compile(r"(?:rt: )?must-fail ([^/\s]+)/(\S+\.edit): (refused|NOT REFUSED|BAD EDIT|NOT TRIED)(.*)")

# What came of the edits of a crate: the kind and the words for each by its name, the processor seconds, how many an earlier
# trial had tried, and how many were judged in batches.
Tried = namedtuple("Tried", "results seconds known judged")


def stop(why):
    print(f"{Path(sys.argv[0]).name}: {why}", file=sys.stderr)
    sys.exit(2)


def rows():
    """The lines of crates.txt by the crates that they name, and what each crate uses."""
    lines, uses = {}, {}
    for line in (ROOT / "crates.txt").read_text().splitlines():
        if line.strip() and not line.startswith("#"):
            head, _, deps = line.partition(":")
            lines[head.split()[0]], uses[head.split()[0]] = line, deps.split()
    return lines, {it: [dep for dep in deps if dep in lines] for it, deps in uses.items()}


def in_order(names, uses):
    """These crates and all that they stand on, each behind those that it stands on."""
    order = {}

    def visit(name):
        if name not in order:
            for it in uses[name]:
                visit(it)
            order[name] = True

    for name in names:
        visit(name)
    return list(order)


def all_crates():
    """The names of the crates, each behind those that it stands on."""
    uses = rows()[1]
    return in_order(uses, uses)


def chosen(names):
    """The crates of these names, or all of them, lowest first."""
    crates = all_crates()
    for it in names:
        if it not in crates:
            stop(f"there is no crate {it}")
    return [it for it in crates if not names or it in names]


def jobs():
    word = os.environ.get("TRIALS_JOBS", "") or str(len(os.sched_getaffinity(0)))
    if not word.isdigit() or int(word) < 1:
        stop("TRIALS_JOBS is not a number from 1 on")
    return int(word)


def files_of(folder):
    """The files of a crate's folder but those that belong to a copy, by their paths in it."""
    found = {}
    for at, folders, names in os.walk(folder):
        if Path(at) == folder:
            folders[:] = [it for it in folders if it not in OWN]
        for name in names:
            path = Path(at) / name
            found[path.relative_to(folder)] = path
    return found


def copy_folder(one, other):
    """Gives the other folder the files of the one, and writes only what differs."""
    wanted, there = files_of(one), files_of(other)
    for path in there.keys() - wanted.keys():
        there[path].unlink()
    for path, file in wanted.items():
        if path not in there or there[path].read_bytes() != file.read_bytes():
            (other / path).parent.mkdir(parents=True, exist_ok=True)
            shutil.copyfile(file, other / path)


def ran(words, folder, **more):
    """Runs a command there, and gives its status, what it said and the processor seconds that it took."""
    how = {"cwd": folder, "stdin": subprocess.DEVNULL, "stdout": subprocess.PIPE, "stderr": subprocess.STDOUT}
    with subprocess.Popen(words, env={**os.environ, **more}, **how) as it:
        said = it.stdout.read().decode(errors="replace")
        _, status, used = os.wait4(it.pid, 0)
        it.returncode = os.WEXITSTATUS(status) if os.WIFEXITED(status) else -os.WTERMSIG(status)
    return it.returncode, said, used.ru_utime + used.ru_stime


class Room:
    """The copy. Nobody else uses it while this one stands."""

    def __init__(self, name):
        if not shutil.which("rt"):
            stop("rt is not on the path")
        home = os.environ.get("TRIALS_ROOM") or Path.home() / ".cache" / "conc-trials"
        self.at = Path(home).absolute() / name
        # (rt reads every crates.txt below the copy, so what is tried in batches stands beside it)
        self.benches = self.at.with_name(f"{name}-benches")
        (self.at / "crates").mkdir(parents=True, exist_ok=True)
        self.lock = open(self.at / "lock", "w")
        try:
            fcntl.flock(self.lock, fcntl.LOCK_EX | fcntl.LOCK_NB)
        except BlockingIOError:
            print(f"waiting for another trial in {self.at}", file=sys.stderr)
            fcntl.flock(self.lock, fcntl.LOCK_EX)
        self.building, self.built = threading.Lock(), set()
        self.renew()

    def renew(self):
        """Brings the files of the copy to those of the repository, with no edits."""
        crates = all_crates()
        for it in (self.at / "crates").iterdir():
            if it.name not in crates:
                shutil.rmtree(it)
        for name in crates:
            (self.at / "crates" / name).mkdir(exist_ok=True)
            copy_folder(ROOT / "crates" / name, self.at / "crates" / name)
            self.put(name, {})
        for name in ("crates.txt", "HANDLES"):
            shutil.copyfile(ROOT / name, self.at / name)

    def put(self, crate, edits):
        """Gives the crate these edits, texts by their names, and no others."""
        folder = self.at / "crates" / crate / "must-fail"
        shutil.rmtree(folder, ignore_errors=True)
        folder.mkdir()
        for name, text in edits.items():
            (folder / name).write_text(text)

    def build(self, crate):
        """Builds the libraries that the crate stands on, each once in a trial. It gives whether they are there, and the
        processor seconds. One thread builds at a time: rt must-fail, which would build them too, waits for no other rt."""
        uses, seconds = rows()[1], 0.0
        with self.building:
            tops = [it for it in uses[crate] if not any(it in in_order([dep], uses) for dep in uses[crate] if dep != it)]
            for top in tops:
                if top not in self.built:
                    status, _, more = ran(["rt", "lib", "--jobs", str(jobs())], self.at / "crates" / top)
                    seconds += more
                    if status:
                        return False, seconds
                    self.built.update(in_order([top], uses))
        return True, seconds

    def alone(self, crate, edits, at_once):
        """Tries the edits of a crate one by one, so many proofs at once."""
        self.put(crate, edits)
        _, said, seconds = ran(["rt", "must-fail", crate], self.at, RT_JOBS=str(at_once))
        known = re.search(r"(\d+) of its \d+ must-fail edits were tried by an earlier run", said)
        return Tried(results_of(crate, edits, said), seconds, int(known[1]) if known else 0, 0)


def results_of(crate, edits, said):
    """What rt said of each edit, read from its lines."""
    found, lines = {}, said.splitlines()
    for number, line in enumerate(lines):
        told = LINE.match(line)
        if told and told[1] == crate:
            kind = LIMIT if "only by a limit of the prover" in told[4] else SAID[told[3]]
            # (a bad edit's own lines follow it)
            more = [it for it in lines[number + 1 : number + 4] if not it.startswith("rt: ")] if kind == BAD else []
            found[told[2]] = kind, " ".join([told[4].lstrip(": "), *more])
    silent = "rt said nothing of it, but: " + " / ".join(lines[-4:])
    return {it: found.get(it, (NOT_TRIED, silent)) for it in edits}


def each(crates, call):
    """Calls call(crate, how many proofs at once) for each crate, the lowest first, and gives each crate with what came of it as
    soon as that is known."""
    many = min(jobs(), max(len(crates), 1))
    at_once = max(jobs() // many, 1)
    with ThreadPoolExecutor(many) as pool:
        begun = {pool.submit(call, it, at_once): it for it in crates}
        for done in as_completed(begun):
            yield begun[done], done.result()


def changes_of(text):
    """The lines 'old' and 'new' of an edit, as they are shown."""
    shown = [it for it in text.splitlines() if it.startswith(("file:", "old:", "new:"))]
    return "\n".join(f"    {it}" for it in shown)


def counted(tried):
    """How many of the results are of each kind."""
    kinds = [kind for it in tried for kind, _ in it.results.values()]
    return {it: kinds.count(it) for it in (REFUSED, LIMIT, LET_THROUGH, BAD, NOT_TRIED)}
