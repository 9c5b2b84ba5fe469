"""Tries many edits of a crate by one check, for trials/run and trials/mutate.

A function is proved from its own body and the contracts of what it calls, so edits of the bodies of different functions are
applied together, and rt check --only says of each of these functions whether it is proved. An edit counts as refused where
these functions are proved without the edits, and with them the check says 'not proved' or 'no proof' of the edit's function,
for a reason of its own: rattle says 'it calls G, which is not proved' of each function above a refused one, and that tells
nothing of its body. Every other function that the check tells of must be proved, but for such calls. Every other edit is
left to rt must-fail, which tries it alone: one that lies in no one function's body, or in a function that calls itself, that
does not compile, or whose function is proved all the same.

Each crate has a bench beside the copy: a small repository with the crate's own files, and links to those of the crates that
it stands on. So no other check sees the edits, and several crates are tried at once. What a bench proved is kept for the next
trial.
"""

import hashlib
import json
import os
import re
import shutil

import bodies
import room

LINE = re.compile(r"^fn (\S+): (.*)$", re.M)
# An error that is no failed proof: at code, without the name of a function, or at a word that cannot be read. (rt must-fail
# calls an edit with such a one a bad edit.)
ERROR = re.compile(r"^(?:\./)?(src/\S+?|specs/\S+?):(\d+):\d+: error(?:\[\w+\])?: (?:(`[^`]*`): )?(.*)", re.M)
UNREAD = re.compile(r"is not in scope|has no field|is no name|operand is missing|expected the end|cannot continue")
GONE = re.compile(r"has no field|is not in scope|has no `|was not admitted")
UNKNOWN = re.compile(r"has no function `([^`]+)`")


# What decides over a verdict beside a crate's files and those below it, and the edit itself.
JUDGES = (room.ROOT / "trials" / "batches.py", room.ROOT / "trials" / "bodies.py")


class Memory:
    """The edits of a crate that an earlier trial saw refused in batches, while nothing that they stand on has changed."""

    def __init__(self, copy, crate):
        self.file, self.stands_on = copy.at / "told" / f"{crate}.json", hashlib.sha256()
        lines, uses = room.rows()
        self.stands_on.update(room.ran(["rt", "version"], copy.at)[1].encode())
        for it in JUDGES:
            self.stands_on.update(it.read_bytes())
        for name in room.in_order([crate], uses):
            files = room.files_of(copy.at / "crates" / name)
            texts = [(str(path), files[path].read_bytes()) for path in sorted(files)]
            self.stands_on.update(repr((lines[name], texts)).encode())
        known = json.loads(self.file.read_text()) if self.file.is_file() else {}
        self.known = known["refused"] if known.get("stands on") == self.stands_on.hexdigest() else {}

    def of(self, edits):
        """What is known of these edits."""
        sums = {it: hashlib.sha256(text.encode()).hexdigest() for it, text in edits.items()}
        return {it: (room.REFUSED, self.known[its]) for it, its in sums.items() if its in self.known}

    def keep(self, edits, results):
        """Keeps that these edits were refused."""
        for it, (_, words) in results.items():
            self.known[hashlib.sha256(edits[it].encode()).hexdigest()] = words
        self.file.parent.mkdir(exist_ok=True)
        self.file.write_text(json.dumps({"stands on": self.stands_on.hexdigest(), "refused": self.known}))


def link_folder(one, other):
    """Gives the other folder the files of the one, as links to the same files."""
    if one.is_dir():
        shutil.copytree(one, other, copy_function=os.link)


class Bench:
    """A repository of one crate and what it stands on, in which checks of the edited crate are done."""

    def __init__(self, copy, crate):
        self.crate, self.at, self.seconds = crate, copy.benches / crate, 0.0
        self.home = self.at / "crates" / crate
        lines, uses = room.rows()
        names = room.in_order([crate], uses)
        self.home.mkdir(parents=True, exist_ok=True)
        (self.at / "crates.txt").write_text("".join(f"{lines[it]}\n" for it in names))
        shutil.copyfile(copy.at / "HANDLES", self.at / "HANDLES")
        for it in (self.at / "crates").iterdir():
            if it.name != crate:
                shutil.rmtree(it)
        for name in names[:-1]:
            for part in ("src", "specs", "proofs", "out/rlib"):
                link_folder(copy.at / "crates" / name / part, self.at / "crates" / name / part)
        if not (self.home / "out" / "incremental").is_dir():
            link_folder(copy.at / "crates" / crate / "out" / "incremental", self.home / "out" / "incremental")
        self.files = copy.at / "crates" / crate
        self.texts = {str(it.relative_to(self.files)): it.read_text("utf-8") for it in sorted(self.files.glob("src/**/*.rt"))}

    def check(self, functions, lines, at_once):
        """Checks these functions with these lines in place of the crate's own. It gives the status and what was said."""
        room.copy_folder(self.files, self.home)
        for path in {path for path, _ in lines}:
            text = self.texts[path].split("\n")
            for number in (number for other, number in lines if other == path):
                text[number] = lines[path, number]
            (self.home / path).write_text("\n".join(text), "utf-8")
        only = [word for it in functions for word in ("--only", it)]
        status, said, seconds = room.ran(["rt", "check", "--jobs", str(at_once), *only], self.home)
        self.seconds += seconds
        return status, said


def unread(said):
    """Where the code cannot be read, as (file, number of a line from 0)."""
    plain = [(path, number, name, re.sub(r"`[^`]*`", "", words)) for path, number, name, words in ERROR.findall(said)]
    return {(path, int(number) - 1) for path, number, name, words in plain if not name or UNREAD.search(words)}


def is_own(name, line, said, is_alone):
    """Whether a function's line says that its own proof failed, and not only that of one it calls or cites. With one edit
    alone a proof file that names what is gone says so too; with several, the name may have gone by another of them."""
    kind, reasons = re.match(r"(not proved|no proof|)(?:[:;] )?(.*)", line).groups()
    if kind == "no proof":
        return any(it.startswith(("expected ", "`search` did not prove ")) for it in reasons.split("; "))
    *folders, last = [re.escape(it) for it in name.split("::")[1:]]
    folder = "/".join(["proofs", *folders, rf"\+?{last}"])
    errors = re.findall(rf"^(?:\./)?{folder}/\w+\.antt:\d+:\d+: error: (.*)", said, re.M)
    return kind == "not proved" and any(is_alone or not GONE.search(it) for it in errors)


def is_above(line):
    """Whether a function's line says that it is not proved only since it calls others that are not."""
    return line.startswith("no proof: it calls ") and all(it.startswith("it calls ") for it in line[10:].split("; "))


def is_proved(line):
    """Whether a function's line says that it is proved; it may go on, as in `proved, may wait`."""
    return line.startswith("proved")


def in_cycles(folder):
    """The names of functions that call themselves or one another: they have one proof, in a folder '+NAME' or '+NAME+NAME'."""
    return {name for it in folder.glob("proofs/**/+*") for name in re.split(r"[+-]", it.name)}


def is_of(name, function):
    """Whether a name is that of the function or of one of its closures."""
    module, _, last = function.rpartition("::")
    return name == function or name.startswith(f"{module}::fn::{last}::")


class Batches:
    """The edits of a crate that are tried together."""

    def __init__(self, copy, crate, edits, at_once):
        self.bench, self.at_once = Bench(copy, crate), at_once
        self.bodies = {path: bodies.bodies_of(text) for path, text in self.bench.texts.items()}
        lines = {it: bodies.lines_of(text, self.bench.texts) for it, text in edits.items()}
        homes = {it: bodies.home_of(crate, lines[it], self.bodies) for it in edits if lines[it]}
        cycles = in_cycles(self.bench.files)
        # (the edits that are tried so; what each changes; those that do not compile; and what came of them)
        self.homes = {it: home for it, home in homes.items() if home and home.rpartition("::")[2] not in cycles}
        self.lines, self.wrong, self.results = lines, [], {}

    def begin(self):
        """Whether the functions are proved without the edits. It drops those that rattle does not know by these names."""
        while self.homes:
            status, said = self.bench.check(sorted({*self.homes.values()}), {}, self.at_once)
            unknown = UNKNOWN.search(said)
            if not unknown or unknown[1] not in self.homes.values():
                told = dict(LINE.findall(said))
                is_sound = status == 0 and all(is_proved(told.get(it, "")) for it in self.homes.values())
                return is_sound and re.search(r"^only=\d+ proved=\d+$", said, re.M)
            self.homes = {it: home for it, home in self.homes.items() if home != unknown[1]}
        return False

    def rounds(self):
        """The edits in batches, in each at most one of a function."""
        left = dict(self.homes)
        while left:
            batch = {}
            for it, home in left.items():
                batch.setdefault(home, it)
            yield list(batch.values())
            left = {it: home for it, home in left.items() if it not in batch.values()}

    def attempt(self, names):
        """Tries these edits together, and the halves of them where that tells nothing."""
        lines = {key: line for it in names for key, line in self.lines[it].items()}
        status, said = self.bench.check([self.homes[it] for it in names], lines, self.at_once)
        if self.read(names, status, said):
            return
        wrong = self.with_errors(names, said)
        self.wrong += wrong
        rest = [it for it in names if it not in wrong]
        if wrong and rest:
            self.attempt(rest)
        elif not wrong and len(names) > 1:
            self.attempt(names[: len(names) // 2])
            self.attempt(names[len(names) // 2 :])

    def read(self, names, status, said):
        """Takes what a check said of the edits, and gives whether it is of use."""
        told = dict(LINE.findall(said))
        ended = re.search(r"^only=\d+ proved=\d+$", said, re.M)
        own = {it: [name for name in told if is_of(name, self.homes[it])] for it in names}
        others = told.keys() - {name for it in own.values() for name in it}
        is_plain = all(is_proved(told[it]) or is_above(told[it]) for it in others)
        if status not in (0, 1) or not ended or unread(said) or not is_plain:
            return False
        for it in names:
            failed = [name for name in own[it] if is_own(name, told[name], said, len(names) == 1)]
            if self.homes[it] in told and failed and not any(told[name].startswith("could not") for name in own[it]):
                self.results[it] = room.REFUSED, f"{failed[0]}: {told[failed[0]]}"
        # (once those that are refused are out, others may be judged)
        again = [it for it in names if it not in self.results and not is_proved(told.get(self.homes[it], "proved"))]
        if again and len(again) < len(names):
            self.attempt(again)
        return not again or len(again) < len(names)

    def with_errors(self, names, said):
        """The edits in whose functions' bodies an error stands."""
        hit = {bodies.home_of(self.bench.crate, [it], self.bodies) for it in unread(said)}
        return [it for it in names if self.homes[it] in hit]


def in_batches(copy, crate, edits, at_once):
    """What came of the edits of a crate that were clearly refused in batches; those that do not compile; processor seconds."""
    is_built, seconds = copy.build(crate)
    if not is_built:
        return {}, [], seconds
    every = Batches(copy, crate, edits, at_once)
    if every.begin():
        for names in every.rounds():
            every.attempt(names)
    return every.results, every.wrong, seconds + every.bench.seconds


def attempt(copy, crate, edits, at_once):
    """Tries the edits of a crate, so many proofs at once: in batches, and alone what these leave."""
    memory = Memory(copy, crate)
    results = memory.of(edits)
    known, judged, wrong, seconds = len(results), 0, [], 0.0
    left = {it: text for it, text in edits.items() if it not in results}
    if left:
        found, wrong, seconds = in_batches(copy, crate, left, at_once)
        memory.keep(left, found)
        results.update(found)
        judged = len(found)
    left = {it: text for it, text in left.items() if it not in results and it not in wrong}
    # (one by one is cheaper for those that do not compile: for several, rt must-fail proves the crate as well)
    for some in [*({it: edits[it]} for it in wrong), *([left] if left else [])]:
        found = copy.alone(crate, some, at_once)
        results.update(found.results)
        seconds, known = seconds + found.seconds, known + found.known
    return room.Tried({it: results[it] for it in edits}, seconds, known, judged)
