#!/usr/bin/env python3
"""Respells the repository's own definitions and lemmas as the Rattle of today spells names.

usage: python3 tools/respell.py [--report]      at the top of the repository, once, after port.py

Words of definitions, lemmas, fields of records and local names become snake case: `altitudeInRange` is
`altitude_in_range`, `in-range-between` is `in_range_between`. A dash stays where it joins two names that
stand by themselves, as in `howMany-take`. Names of Rattle's library, names that Rattle makes, functions of
src/, and names that C or a test reads stay as they are. Pages and must-fail edits get the same names.
--report writes nothing, and lists the names that would fall together.
"""

import os
import re
import sys

WORD = r"[A-Za-z_][\w'ℕℤ]*(?:-[\w'ℕℤ]+)*"
TOKEN = re.compile(WORD)
USE = re.compile(r"^(?:pub |ghost )?use ([\w.'+-]+?)(?:\.\{([^}]*)\}|(?: as (\S+?))?);?$", re.M | re.S)
MADE = {"Statement", "Tie", "Goals", "Given", "Lts", "Reads", "Met", "declared", "contracts"}
# A new name that would hide a parameter or a field of the code, or that another name has already.
CHOSEN = {
    "keptSpeeds": "kept_speed_values",
    "keptCo2": "kept_co2_values",
    "goesOn": "reads_on",
    "plan-in-range": "plan_is_in_range",
    "reference-in-range": "reference_is_in_range",
    "row-in-range": "row_is_in_range",
    "values-in-range": "values_are_in_range",
    "altitude-in-range": "altitude_is_in_range",
    "lanes-differ": "if_lanes_differ",
    "plan-out-of-range": "if_plan_out_of_range",
    "lane-too-short": "if_lane_too_short",
    "cut-item": "if_cut_item",
    "unknown-kind": "if_unknown_kind",
}
# Names that port.py had put into snake case, and that a definition now has; a field or a step of a proof behind
# a dot is another thing.
TAKEN = {
    "too_many": "if_too_many",
    "out_of_range": "if_out_of_range",
    "no_second": "if_no_second",
    "too_short": "if_too_short",
    "rows_more": "rows_more_lem",
    "walk_more": "walk_more_lem",
    "read_back": "read_back_lem",
    "made_after": "made_after_lem",
}
OUTCOMES = re.compile(r"\b(Outcome|Given)\.$")
STEP = re.compile(r"\.(ensures|result|requires|new)\b")


def own_crates(root):
    with open(os.path.join(root, "crates.txt"), encoding="utf-8") as f:
        return {l.split(":")[0].split()[0] for l in f if ":" in l and not l.lstrip().startswith("#")}


def antt_files(root):
    for folder, dirs, files in os.walk(os.path.join(root, "crates")):
        dirs[:] = sorted(d for d in dirs if d != "out")
        for f in sorted(files):
            if f.endswith(".antt"):
                yield os.path.join(folder, f)


def files_by(root, ends, top="crates"):
    for folder, dirs, files in os.walk(os.path.join(root, top)):
        dirs[:] = sorted(d for d in dirs if d not in ("out", "target", ".git"))
        for f in sorted(files):
            if f.endswith(ends):
                yield os.path.join(folder, f)


def split_comments(text):
    """The parts of an antt text: (is_comment, part)."""
    at = 0
    for m in re.finditer(r"--(?=[ \n])[^\n]*|--$", text):
        yield False, text[at : m.start()]
        yield True, m.group()
        at = m.end()
    yield False, text[at:]


def code(text):
    return "".join(p for c, p in split_comments(text) if not c)


def is_odd(name):
    return "-" in name or re.match(r"[a-z_]", name) and re.search(r"[a-z0-9'][A-Z]", name)


def snake(word):
    if not re.match(r"[a-z_]", word) or "ℕ" in word or "ℤ" in word:
        return word
    word = re.sub(r"([a-z0-9])([A-Z])", r"\1_\2", word)
    word = re.sub(r"([A-Z])([A-Z][a-z])", r"\1_\2", word)
    return word.lower()


class Names:
    def __init__(self, root):
        self.crates = own_crates(root)
        self.fields, self.known = set(), {"length", "take", "drop", "set", "sum", "map", "get_or", "append", "replicate", "reverse", "zip", "cond", "not", "min", "max"}
        self.taken = set()
        for p in antt_files(root):
            with open(p, encoding="utf-8") as f:
                t = code(f.read())
            for block in re.finditer(r"^(?:abbrev )?(?:pub )?record .*\n((?:  .*\n|\n)*)", t, re.M):
                self.fields |= set(re.findall(rf"^  (?:pub )?({WORD}) :", block.group(1), re.M))
            self.fields |= set(re.findall(rf"record \{{\s*({WORD}) :", t)) | set(re.findall(rf";\s*({WORD}) :", t))
            if "/specs/" in p:
                self.known |= {snake(n) for n in re.findall(rf"^(?:abbrev |unfoldable )(?:pub )?({WORD})[ {{]", t, re.M)}
        self.fields = {n for n in self.fields if is_odd(n)}

    def is_made(self, module):
        parts = module.split(".")
        return not (parts[0] == "Rattle" and len(parts) > 1 and parts[1] in self.crates) or bool(MADE & set(parts))

    def new(self, name):
        if name in CHOSEN:
            return CHOSEN[name]
        parts = [snake(p) for p in name.split("-")]
        made = parts[0]
        for a, b in zip(parts, parts[1:]):
            keep = a[:1].isupper() or (a in self.known and b in self.known)
            made += ("-" if keep else "_") + b
        return made + "_lem" if len(parts) > 1 and made in self.taken else made

    def foreign(self, text):
        """The names of a file that are Rattle's or another library's, and the aliases of modules that are."""
        names, modules = set(), set()
        for m in USE.finditer(code(text)):
            if m.group(2) is not None and self.is_made(m.group(1)):
                for n in re.split(r"\s*,\s*", m.group(2).strip()):
                    names.add(n.split(" as ")[-1].strip())
                    names.add(n.split(" as ")[0].strip())
            if m.group(3) and self.is_made(m.group(1)):
                modules.add(m.group(3))
        return names, modules

    def turn(self, text, foreign):
        def one(m):
            name = m.group()
            dotted = m.start() and text[m.start() - 1] == "."
            if name in TAKEN and name not in foreign and (not dotted or OUTCOMES.search(text[: m.start()][-12:])):
                return TAKEN[name]
            if not is_odd(name) or name in foreign:
                return name
            if dotted and STEP.match(text, m.end()):
                return "_".join(snake(p) for p in name.split("-"))
            if m.start() and text[m.start() - 1] == "." and not text[m.start() - 2 : m.start()] == "..":
                before = re.search(rf"({WORD})\.$", text[: m.start()])
                if name not in self.fields and not (before and before.group(1)[:1].isupper() and re.search(r"[a-z][A-Z]", name)):
                    return name
            if m.start() and text[m.start() - 1] in "₀₁₂₃₄₅₆₇₈₉◌":
                return name
            return self.new(name)

        return TOKEN.sub(one, text)


def turn_use(names, text):
    """A file of antt: imports by their module, and all other names by what the file has in scope."""
    foreign, _ = names.foreign(text)
    out = []
    for is_comment, part in split_comments(text):
        if is_comment:
            out.append(turn_prose(names, part))
            continue
        at, made = 0, ""
        for m in USE.finditer(part):
            made += names.turn(part[at : m.start()], foreign)
            if names.is_made(m.group(1)) or m.group(2) is None:
                made += m.group()
            else:
                head = m.group()[: m.group().index(".{") + 2]
                made += head + names.turn(m.group(2), set()) + m.group()[m.group().rindex("}") :]
            at = m.end()
        out.append(made + names.turn(part[at:], foreign))
    return "".join(out)


def turn_prose(names, text):
    """Prose: camel case anywhere, names with a dash only in backquotes."""
    def quoted(m):
        inner = m.group(1)
        return "`" + TOKEN.sub(lambda n: names.new(n.group()) if is_odd(n.group()) and n.group() in names.all else n.group(), inner) + "`"

    text = re.sub(r"`([^`\n]*)`", quoted, text)
    return re.sub(r"(?<![\w`./-])[a-z]+\d?[A-Z]\w*(?![\w(]|-)", lambda m: names.new(m.group()) if m.group() in names.all else m.group(), text)


def turn_rt(names, text):
    """Clauses and imports of a source: only camel case, which the code itself has nowhere."""
    foreign = set()
    out = []
    for line in text.split("\n"):
        head, mark, tail = line.partition("//")
        head = re.sub(r"(?<![\w.])[a-z][a-z0-9]*[A-Z]\w*|(?<=\.)[a-z][a-z0-9]*[A-Z]\w*", lambda m: names.new(m.group()) if m.group() in names.all else m.group(), head)
        out.append(head + mark + turn_prose(names, tail))
    return "\n".join(out)


def main(argv):
    root = "."
    names = Names(root)
    texts = {p: open(p, encoding="utf-8").read() for p in antt_files(root)}
    names.all = set()
    for p, t in texts.items():
        foreign, _ = names.foreign(t)
        for m in TOKEN.finditer(USE.sub("", code(t))):
            n = m.group()
            if is_odd(n) and n not in foreign and not (m.start() and code(t)[m.start() - 1 : m.start()] == "." ):
                names.all.add(n)
    names.taken = {snake(n) for n in names.all if "-" not in n}
    for t in texts.values():
        plain = {m.group() for m in re.finditer(rf"(?<![\w.'-]){WORD}", code(t)) if "-" not in m.group()}
        for n in names.all:
            if "-" in n and n.replace("-", "_") in plain and re.search(rf"(?<![\w.'-]){re.escape(n)}(?![\w'-])", code(t)):
                names.taken.add(n.replace("-", "_"))
    if "--report" in argv:
        return report(names, texts, root)
    for p, t in texts.items():
        write(p, t, turn_use(names, t))
    for p in files_by(root, (".rt",)):
        t = open(p, encoding="utf-8").read()
        write(p, t, turn_rt(names, t))
    for p in files_by(root, (".edit",)):
        t = open(p, encoding="utf-8").read()
        write(p, t, turn_edit(names, t))
    for p in ["README.md"] + list(files_by(root, (".md",), "docs")):
        t = open(p, encoding="utf-8").read()
        write(p, t, turn_prose(names, t))


def turn_edit(names, text):
    return re.sub(r"(?<![\w.])[a-z][a-z0-9]*[A-Z]\w*|(?<=\.)[a-z][a-z0-9]*[A-Z]\w*", lambda m: names.new(m.group()) if m.group() in names.all else m.group(), text)


def write(path, old, new):
    if old != new:
        with open(path, "w", encoding="utf-8") as f:
            f.write(new)


def report(names, texts, root):
    fell = 0
    for p, t in texts.items():
        c = code(t)
        foreign, _ = names.foreign(t)
        seen = {}
        for m in TOKEN.finditer(c):
            n = m.group()
            after_dot = m.start() and c[m.start() - 1] == "."
            if after_dot:
                continue
            to = TAKEN[n] if n in TAKEN and n not in foreign else n if (not is_odd(n) or n in foreign) else names.new(n)
            seen.setdefault(to, set()).add(n)
        for to, froms in sorted(seen.items()):
            if len(froms) > 1:
                fell += 1
                print(f"{p}: {to} <- {' '.join(sorted(froms))}")
    for p in files_by(root, (".rt",)):
        t = open(p, encoding="utf-8").read()
        had = set(re.findall(r"\b[a-z]\w*\b", re.sub(r"//.*", "", t)))
        fns = set(re.findall(r"\bfn (\w+)", t))
        for n in sorted(set(re.findall(r"\b[a-z][a-z0-9]*[A-Z]\w*", t))):
            if n in names.all and names.new(n) in had:
                print(f"{p}: {names.new(n)} <- {n}, and the code has it{' as a function' if names.new(n) in fns else ''}")
    print(f"{fell} fall together; {len(names.all)} names", file=sys.stderr)
    return 0


if __name__ == "__main__":
    raise SystemExit(main(sys.argv[1:]) or 0)
