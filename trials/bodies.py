"""Which function's body an edit changes, for trials/batches.py.

It reads the layout of rt fmt, as trials/changes.py does: a body begins with '{' at the end of a signature, or alone behind the
clauses, and ends with '}' at the depth of its function. Both TEXTs of an edit stand on one line, so that an edit changes
lines, and adds none. Where it is not sure, an edit has no function, and is tried alone.
"""

import re
from collections import namedtuple

FUNCTION = re.compile(r"( *)(?:pub(?:\([a-z]+\))? )?(?:unsafe )?fn (\w+)")
# An impl of a type, or of a trait without arguments for a type. (rattle's name of an impl of another trait has the arguments.)
IMPL = re.compile(r"impl(?:<(?:(?! for ).)*?>)? (?:(\w+) for )?(\w+)(?:<(?:(?! for ).)*>)?(?: \{)?$")
# Other functions may see the body of one that has such a word above its body: of a cycle of calls, or with a hidden type.
SEEN = re.compile(r"#\[(?:cycle|cfg|test)\b|\bimpl\b")

# The end of a function's name as rattle prints it, or None, and the numbers of the lines of its body's braces, from 0.
Body = namedtuple("Body", "name first last")


def opens(line, outer, is_first):
    """Whether the line ends what stands above the body of a function at this depth."""
    return line == outer + "{" or line.endswith(" {") and (is_first or line.startswith((outer + ")", outer + ">")))


def name_of(begins, head, above):
    """The end of a function's name: 'name' of a free one, 'Type::name' of a method, 'TypeTrait::name' of a trait's method."""
    outer, name = begins.groups()
    if SEEN.search(above) or outer and not (head and outer == " " * 4):
        return None
    return f"{head[2]}{head[1] or ''}::{name}" if outer else name


def above(lines, number):
    """The lines above a function down to that of its '{': from the empty line, or the end of another item, before it."""
    start = number
    while start and lines[start - 1].strip() and not lines[start - 1].endswith(("{", "}")):
        start -= 1
    return start


def bodies_of(text):
    """The bodies of the functions of a file of code, those on one line left out."""
    lines, found, head, begins, first = text.split("\n"), [], None, None, None
    for number, line in enumerate(lines):
        if first is not None:
            if line == begins[1] + "}":
                words = "\n".join(lines[above(lines, at) : first + 1])
                found.append(Body(name_of(begins, head, words), first, number))
                begins = first = None
            continue
        if line.startswith("impl"):
            head = IMPL.match(line)
        elif line == "}" or re.match(r"(?:pub(?:\([a-z]+\))? )?(?:unsafe )?(?:trait|mod) ", line):
            head = None
        if FUNCTION.match(line):
            begins, at = FUNCTION.match(line), number
        if begins and opens(line, begins[1], number == at):
            first = number
        elif begins and line.endswith(";") or begins and number == at and line.endswith("}"):
            begins = None
    return found


def module_of(crate, path):
    """The module that a file of code is, as rattle names it."""
    parts = path[len("src/") : -len(".rt")].split("/")
    return "::".join([crate, *(parts[:-1] if parts[-1] in ("lib", "main", "mod") else parts)])


def lines_of(edit, texts):
    """The lines that an edit changes, as they then are, by (file, number from 0). None where it cannot be applied to the
    texts, or where it opens or closes a block."""
    path, old, now, found = "", None, dict(texts), {}
    for line in edit.split("\n"):
        if line.startswith("file: "):
            path = line[len("file: ") :].strip()
        elif line.startswith("old: "):
            old = line[len("old: ") :]
        elif line.startswith("new:"):
            new = re.sub(r"\A ", "", line[len("new:") :])
            if not old or now.get(path, "").count(old) != 1 or level(old) != level(new):
                return None
            number = now[path][: now[path].index(old)].count("\n")
            now[path] = now[path].replace(old, new)
            found[path, number] = now[path].split("\n")[number]
            old = None
    return found


def level(text):
    return text.count("{") - text.count("}")


def home_of(crate, lines, bodies):
    """The function, as rattle names it, in whose body all of these lines stand; bodies are those of each file. Else None."""
    homes = set()
    for path, number in lines:
        names = [it.name for it in bodies.get(path, ()) if it.first < number < it.last]
        homes.add(f"{module_of(crate, path)}::{names[0]}" if names and names[0] else None)
    return homes.pop() if len(homes) == 1 else None
