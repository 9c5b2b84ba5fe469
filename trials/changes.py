"""Changes of one thing each in lines of code, for trials/mutate.

A line of code is a line in the body of a function, or a private constant. Signatures, contracts, ghost items, comments,
attributes and tests are left alone. The layout is that of rt fmt: a body begins with '{' at the end of a signature, or alone
behind the clauses, and ends with '}' at the depth of its function.
"""

import re

FUNCTION = re.compile(r"( *)(?:pub(?:\([a-z]+\))? )?(?:const )?(?:unsafe )?fn \w")
CONSTANT = re.compile(r"const \w+: [^=]+ = .*;$")
LITERAL = re.compile(r"""b?"(?:[^"\\]|\\.)*"|b?'(?:[^'\\]|\\.)'|//.*$""")

# What a text between words becomes; each is one change. Spaces keep clear of types, arrows and closures.
OTHERS = {
    " < ": (" <= ", " > "),
    " <= ": (" < ", " >= "),
    " > ": (" >= ", " < "),
    " >= ": (" > ", " <= "),
    " == ": (" != ",),
    " != ": (" == ",),
    " && ": (" || ",),
    " || ": (" && ",),
    " + ": (" - ",),
    " - ": (" + ",),
    " * ": (" + ",),
    " / ": (" * ",),
    " += ": (" -= ",),
    " -= ": (" += ",),
    "..=": ("..",),
}
# Words, and what each becomes.
WORDS = {
    "true": "false",
    "false": "true",
    "min": "max",
    "max": "min",
    "is_some": "is_none",
    "is_none": "is_some",
    "is_ok": "is_err",
    "is_err": "is_ok",
    "is_some_and": "is_none_or",
    "any": "all",
    "all": "any",
    "first": "last",
    "last": "first",
    "saturating_add": "saturating_sub",
    "saturating_sub": "saturating_add",
    "checked_add": "checked_sub",
    "checked_sub": "checked_add",
    "from_be_bytes": "from_le_bytes",
    "to_be_bytes": "to_le_bytes",
}


def lines_of_code(text):
    """The numbers of the lines of code, from 0."""
    found, depth, in_signature, is_test = [], None, False, False
    for number, line in enumerate(text.split("\n")):
        bare = line.strip()
        if depth is not None:
            if line == depth + "}":
                depth = None
            elif bare and not bare.startswith(("//", "#[", "ghost ", "prove!")) and not is_test:
                found.append(number)
            continue
        begins = FUNCTION.match(line)
        if begins:
            in_signature, outer = True, begins[1]
        if in_signature and (line == outer + "{" or begins and line.endswith("{")):
            depth, in_signature = outer, False
        elif in_signature and line.endswith(";") or begins and line.endswith("}"):
            in_signature = False
        elif CONSTANT.match(line):
            found.append(number)
        if bare.startswith("#["):
            is_test = "test" in bare
        elif begins is None and not in_signature and depth is None and bare:
            is_test = False
    return found


def masked(line):
    """The line with the text of its literals and comments blotted out, of the same length."""
    return LITERAL.sub(lambda it: "\0" * len(it[0]), line)


def replaced(line, start, end, text):
    return line[:start] + text + line[end:]


def turned(line):
    """A comparison, a sign or a word for another."""
    bare = masked(line)
    for sign, others in OTHERS.items():
        for at in re.finditer(re.escape(sign), bare):
            yield from (replaced(line, at.start(), at.end(), it) for it in others)
    for at in re.finditer(r"\b(?:true|false|[a-z_]+(?=\())(?!\w)", bare):
        if at[0] in WORDS:
            yield replaced(line, at.start(), at.end(), WORDS[at[0]])
    for at in re.finditer(r"(?<=[ (])!(?=[a-z(])", bare):
        yield replaced(line, at.start(), at.end(), "")


def other_numbers(line):
    """A number one more or one less, an index one more, and a text with another letter."""
    bare = masked(line)
    for at in re.finditer(r"(?:(?<![\w.])|(?<=\.\.))\d+(?![\w]|\.\d)", bare):
        yield replaced(line, at.start(), at.end(), str(int(at[0]) + 1))
        if int(at[0]):
            yield replaced(line, at.start(), at.end(), str(int(at[0]) - 1))
    for at in re.finditer(r"(?<=\w)\[([a-z_]+)\]", bare):
        yield replaced(line, at.start(1), at.end(1), at[1] + " + 1")
    for at in LITERAL.finditer(line):
        letter = re.search(r"""(?<=["'])[a-z0-9,.:-]""", at[0])
        if letter and not at[0].startswith("//"):
            start = at.start() + letter.start()
            yield replaced(line, start, start + 1, "y" if letter[0] == "x" else "x")


def other_answers(line):
    """A branch that answers nothing, or that all is well."""
    bare = masked(line)
    before = "=> |return " if " => " in bare else "return |^ *"
    for at in re.finditer(rf"(?:{before})(Some\([^ ].*\))(?=[,;]?$)", bare):
        yield replaced(line, at.start(1), at.end(1), "None")
    for at in re.finditer(rf"(?:{before})(Err\([A-Z]\S+\))(?=[,;]?$)", bare):
        yield replaced(line, at.start(1), at.end(1), "Ok(())")


def other_variants(line, variants):
    """A variant of an enum for another, where the line makes a value and matches none."""
    bare = masked(line)
    makes = bare.rfind(" => ") if " => " in bare else -1
    if "let " in bare and " = " in bare:
        makes = max(makes, bare.find(" = "))
    for at in re.finditer(r"\b([A-Z]\w+)::([A-Z]\w+)\b(?!::)", bare):
        if at.start() > makes and "matches!" not in bare and not bare.strip().startswith("|"):
            yield from (replaced(line, at.start(2), at.end(2), it) for it in variants.get((at[1], at[2]), ()))


def dropped(line):
    """A whole statement on one line, left out."""
    bare = masked(line).strip()
    whole = bare.endswith(";") and all(bare.count(one) == bare.count(other) for one, other in ("()", "[]", "{}"))
    if whole and not bare.startswith(("let ", "use ", "const ", ")", "}", ".", "=", "&&", "||")):
        yield ""


def changes_of(line, variants):
    """All the changes of a line, none twice."""
    every = [*turned(line), *other_numbers(line), *other_answers(line), *other_variants(line, variants), *dropped(line)]
    return list(dict.fromkeys(it for it in every if it != line))


def variants_of(texts):
    """For each variant of each enum, by both names, the others with the same fields."""
    found = {}
    for text in texts:
        for enum in re.finditer(r"^(?:pub(?:\([a-z]+\))? )?enum (\w+)[^{]*\{\n(.*?)^\}", text, re.M | re.S):
            every = re.findall(r"^    ([A-Z]\w*)(.*),$", enum[2], re.M)
            for name, fields in every:
                found[enum[1], name] = [other for other, its in every if its == fields and other != name]
    return found
