#!/usr/bin/env python3
"""Brings this repository's own names to today's spelling, once, after /opt/rattle/port/port.py: definitions, lemmas and fields in snake case, and the
crate `core`, whose name is now a library's, as `chip_core`. Functions of src/, texts, inputs and outputs keep theirs.

usage: python3 tools/spell_names.py          at the top of the repository; with --dry it only says what it would rename, and which names would fall together
"""

import os
import re
import subprocess
import sys

OLD, NEW = "core", "chip_core"
# names of another crate of this repository that port.py took for the library's, since that crate was called `core`
OWN_SPECS = "Clock|Control|Instruction|Iterate|Machine|Refusal|Rule|Unit|Word|declared"
OWN_PROOFS = "Answered|Choice|ClockTable|Determined|Difference|Effects|Entries|Field|Finite|Flags|Iteration|Kind|Loaded|Order|Overflow|Range|Refusals|RoundTrip|Running|Shift|Stepping|ThreeClocks"
# where the plain rule would give a name that stands already
INSTEAD = {
    "in-range": "in_range_lem",
    "clocks-of": "clocks_of_lem",
    "decode-row": "decode_row_lem",
    "fetch-not-next": "fetch_not_next_lem",
    "on-cell": "on_cell_lem",
    "refused-text": "refused_text_lem",
    "after_line": "after_line_lem",
}
# what port.py wrote for a name, or left of one, where it took it for the library's
GARBLED = {"Tried-then": "tried_then", "isSet": "is_set", "inRange": "in_range", "none-found": "none_found"}
# fields of this repository's own records whose names have a dash
FIELDS = {"both-accepted", "all-cells"}
EDGE = r"[\w'\-?!₀-₉]"


def texts(*ends):
    for folder, dirs, files in os.walk("crates"):
        dirs[:] = sorted(d for d in dirs if d != "out")
        for f in sorted(files):
            if f.endswith(ends):
                yield os.path.join(folder, f)


def read(path):
    with open(path, encoding="utf-8") as f:
        return f.read()


def write(path, text):
    with open(path, "w", encoding="utf-8") as f:
        f.write(text)


def snake(name):
    name = re.sub(r"([a-z0-9])([A-Z])", r"\1_\2", name)
    name = re.sub(r"([a-z])([0-9]{2,})", r"\1_\2", name)
    return name.replace("-", "_").lower()


def declared(path):
    """The names that a file of specs/ or proofs/ declares; of a function's proof only the name of the proof itself, since the others are the checker's."""
    folder = os.path.basename(os.path.dirname(path))
    for m in re.finditer(r"^ *(?:(?:abbrev|unfoldable|pub|private) )*([^\s:(){}.|=]+) ?(?:(?:\{[^}]*\}|\([^)]*\)) )*: ", read(path), re.M):
        name = m.group(1)
        if folder in ("specs", "proofs") or name.endswith("-spec"):
            yield name


def renamings():
    names = {}
    for path in texts(".antt"):
        for name in declared(path):
            if name[0].islower() and (re.search(r"[a-z0-9][A-Z]", name) or "-" in name):
                names[name] = INSTEAD.get(name, snake(name))
            elif "-" in name or name in INSTEAD:
                names[name] = INSTEAD.get(name, snake(name))
    return names


def found(name, text, path):
    """Whether the text has the name: in a function's proof what stands behind a dot is the checker's, in src/ a name before `(` is the function."""
    text = re.sub(r"(?m)^ *--.*$", "", text)
    for m in re.finditer(rf"(?<!{EDGE}){re.escape(name)}(?!{EDGE})", text):
        behind_dot = text[max(0, m.start() - 1):m.start()] == "."
        if path.endswith(".rt"):
            if re.match(r"\s*:(?!:)", text[m.end():]):
                return True
        elif not behind_dot:
            return True
    return False


def fall_together(names):
    back = {}
    for old, new in names.items():
        back.setdefault(new, []).append(old)
    for new, olds in sorted(back.items()):
        if len(olds) > 1:
            yield f"{', '.join(olds)} would all be {new}"
    for path in texts(".antt", ".rt", ".edit"):
        text = read(path)
        for old, new in names.items():
            if new not in INSTEAD and re.search(rf"(?<!{EDGE}){re.escape(old)}(?!{EDGE})", text) and found(new, text, path):
                yield f"{path}: {old} would be {new}, which stands there"


def spelled(text, names, path=""):
    pattern = re.compile(rf"(?<!{EDGE})(?:" + "|".join(re.escape(n) for n in sorted(names, key=len, reverse=True)) + rf")(?!{EDGE})")
    # in a function's proof a name with a dash behind a dot is the checker's, but for the fields of this repository's own records
    made = "/proofs/" in path and path.endswith("/Proof.antt")

    def new(m):
        name = m.group(0)
        if made and "-" in name and name not in FIELDS and text[max(0, m.start() - 1):m.start()] == ".":
            return name
        return names[name]

    return pattern.sub(new, text)


def crate_named(text):
    text = re.sub(rf"\bRattle\.std\.specs\.(?=(?:{OWN_SPECS})\b)(?!declared\.(?!address|control|machine|refusal|unit|word))", f"Rattle.{NEW}.specs.", text)
    text = re.sub(rf"\bRattle\.std\.proofs\.(?=(?:{OWN_PROOFS})\b)", f"Rattle.{NEW}.proofs.", text)
    text = re.sub(rf"\bRattle\.{OLD}\.", f"Rattle.{NEW}.", text)
    text = text.replace("Rattle.std.proofs.SortedKeys.", f"Rattle.{NEW}.proofs.Order.")
    return re.sub(rf"(?<![\w:]){OLD}::", f"{NEW}::", text)


def main(argv):
    names = renamings()
    together = list(fall_together(names))
    names |= GARBLED
    print("\n".join(together))
    if argv == ["--dry"]:
        print("\n".join(f"{old} -> {new}" for old, new in sorted(names.items())))
        return 0
    if together:
        return 1
    for path in texts(".antt", ".rt", ".edit"):
        # a contract's names stand in .rt files in its clauses and in lines of `ghost use`; no function of src/ has a capital or a dash in its name
        write(path, crate_named(spelled(read(path), names, path)))
    for page in ["README.md"] + [os.path.join("docs", f) for f in sorted(os.listdir("docs")) if f.endswith(".md")]:
        page_text = re.sub(r"`[^`\n]+`", lambda m: spelled(m.group(0), names), read(page))
        page_text = re.sub(rf"`{OLD}`", f"`{NEW}`", page_text)
        page_text = re.sub(rf"\bcrates/{OLD}\b", f"crates/{NEW}", page_text)
        write(page, re.sub(rf"(?<![\w:]){OLD}::", f"{NEW}::", page_text))
    write("crates.txt", "\n".join(re.sub(rf"\b{OLD}\b", NEW, l) if not l.startswith("#") else l for l in read("crates.txt").split("\n")))
    subprocess.run(["git", "mv", f"crates/{OLD}", f"crates/{NEW}"], check=True)
    for crate in sorted(os.listdir("crates")):
        subprocess.run(["/opt/rattle/bin/rt", "fmt"], cwd=os.path.join("crates", crate), check=True, stdout=subprocess.DEVNULL)
    print(f"{len(names)} names")
    return 0


if __name__ == "__main__":
    raise SystemExit(main(sys.argv[1:]))
