"""Brings the repository's own definitions and lemmas to snake case, after port.py: `pairHolds` to `pair_holds`, `pair-exactly` to `pair_exactly`.

    python3 tools/respell.py

Run once, at the top, on the tree that port.py left. It renames in crates/, in .antt and .rt files, comments included. Types, modules, constructors, functions of
src/, goals' names and what the library declares keep their names. It stops, and writes nothing, where two names would fall together.
"""
import glob
import re
import sys

LETTER = r"[^\s(){}\[\].,;:λ\"`|@#\\]"
TOKEN = re.compile(r"(?<!%s)(%s+)" % (LETTER, LETTER))
MARKS = r"(?:(?:pattern|unfoldable|abbrev|pub|axiom) )*"
DECLARED = re.compile(r"^ *%s(%s+)(?: \{[^}\n]*\})? :(?= |$)" % (MARKS, LETTER), re.M)
RECORD = re.compile(r"^(?:pub )?record [^\n]*where\n((?:  [^\n]*\n|\n)+)", re.M)
GHOST_USE = re.compile(r"^\s*ghost use ")

# Where a definition and a lemma would fall together the lemma's name ends in _lem.
LEMMAS = (
    "access-run card-open card-position card-runs conditions-in cycle-whole file-acts file-length file-tests fresh-timed idle-cycle ignored-cycle leading-zeros "
    "machine-position message-ignored mode5-runs no-group no-later no-limit no-programs nudge-acts nudge-output open-in openness-in past-limits positions-in powered-up "
    "preset-bit preset-position real-at run-from setup-words status-run transmit-clear turned-away virtual-at with-setup"
).split()
# port.py had brought these two lemmas to snake case.
APART = {"all_right": "all_right_lem", "position_in": "position_in_lem"}


def files(pattern):
    return sorted(path for path in glob.glob(pattern, recursive=True) if "/out/" not in path)


def read(path):
    with open(path, encoding="utf-8") as file:
        return file.read()


def without_comments(text):
    return re.sub(r"--[^\n]*", "", text)


def is_camel(name):
    return re.match(r"^[a-z][a-z0-9_]*[A-Z]", name) is not None


def snake(name):
    if name in APART:
        return APART[name]
    end = "_lem" if name in LEMMAS else ""
    name = re.sub(r"(?<=[a-z0-9])(?=[A-Z])|(?<=[A-Z])(?=[A-Z][a-z])", "_", name)
    return name.replace("-", "_").lower().replace("′", "'") + end


def own_names():
    """Own names to be respelled, those of definitions and lemmas outside the folders of functions, and among them the fields of records."""
    names, fields = set(APART), set()
    for path in files("crates/*/specs/**/*.antt") + files("crates/*/proofs/*.antt"):
        text = without_comments(read(path))
        for name in DECLARED.findall(text):
            if name[0].islower() and (is_camel(name) or "-" in name or "′" in name):
                names.add(name)
        for body in RECORD.findall(text):
            fields.update(name for name in DECLARED.findall(body) if name in names)
    return names, fields


def respelled(text, names, fields):
    def new(match):
        name = match.group(1)
        if name not in names:
            return name
        before = re.search(r"(\w*)\.\Z", text[max(0, match.start() - 60):match.start()])
        of_a_goal = before and "-" in name and name not in fields and not before.group(1)[:1].isupper()
        return name if of_a_goal else snake(name)

    return TOKEN.sub(new, text)


def fall_together(names):
    tokens = {}
    for path in files("crates/**/*.antt") + files("crates/**/*.rt"):
        text = read(path)
        if path.endswith(".rt"):
            text = "\n".join(line for line in text.splitlines() if GHOST_USE.match(line))
        text = without_comments(text)
        for match in TOKEN.finditer(text):
            if text[match.start() - 1:match.start()] != ".":
                tokens.setdefault(match.group(1), path)
    news = {}
    for name in sorted(names):
        news.setdefault(snake(name), []).append(name)
    for new, olds in sorted(news.items()):
        if len(olds) > 1:
            yield "%s would be %s" % (" and ".join(olds), new)
        elif new in tokens and new not in names:
            yield "%s would be %s, which stands in %s" % (olds[0], new, tokens[new])


if __name__ == "__main__":
    names, fields = own_names()
    wrong = list(fall_together(names))
    if wrong:
        sys.exit("\n".join(wrong))
    for path in files("crates/**/*.antt") + files("crates/**/*.rt"):
        text = read(path)
        with open(path, "w", encoding="utf-8") as file:
            file.write(respelled(text, names, fields))
    print("%d names respelled" % len(names))
