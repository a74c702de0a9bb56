#!/usr/bin/env python3
"""Brings this repository's own names in specs/ and proofs/ to the spelling that Rattle's library has now: definitions
in snake case, types and facts in camel case, a dash only between the names of two functions in a lemma's name. It ran
once, on what port.py had made of an older Rattle's spelling: names of code, of exports and in strings stay as they are.

usage: tools/port-names.py        at the top of the repository: rewrites .antt and .rt files, must-fail edits and pages
       tools/port-names.py list   prints each name and what becomes of it, and changes nothing
"""
import glob
import re
import sys

NAME = r"[A-Za-zα-ωΑ-Ωℕ_][A-Za-z0-9_'₀-₉α-ωℕ≢≡∷]*(?:-[A-Za-z0-9_'₀-₉α-ωℕ≢≡∷]+)*"
# a whole word: what stands before and after is no part of a name
WORD = re.compile(r"(?<![A-Za-z0-9_'₀-₉α-ωℕ≢≡∷-])" + NAME + r"(?![A-Za-z0-9_'₀-₉α-ωℕ≢≡∷-])")
# where the rule would make two names one, or hide one by a parameter of a function
CHOSEN = {}
# the library's functions of lists, by which a lemma's name may begin
OUTER = {"length", "take", "drop", "get_or"}


def code(text, comment="--"):
    """The text without its comments."""
    return re.sub(comment + ".*", "", text)


def declared(text):
    """The names that a file of specs/ or proofs/ declares: at the head of a line, in a field or by a let."""
    names = set()
    for line in text.split("\n"):
        m = re.match(r"\s*(?:(?:unfoldable|abbrev|pub|record|data|let|in)\s+)*(" + NAME + r")\s+(?::|[({].*:|:)", line)
        if m:
            names.add(m.group(1))
        m = re.match(r"\s*(?:(?:unfoldable|abbrev|pub)\s+)*(?:record|data)\s+(" + NAME + ")", line)
        if m:
            names.add(m.group(1))
        # several fields, or parameters of one type
        for m in re.finditer(r"[({]((?:" + NAME + r"\s+)+):", line):
            names.update(m.group(1).split())
    for m in re.finditer(r"\blet\s+(" + NAME + r")\s*[:=]", text):
        names.add(m.group(1))
    for m in re.finditer(r"λ\s*((?:" + NAME + r"\s*)+)\.", text):
        names.update(m.group(1).split())
    return names


def sources():
    specs = sorted(glob.glob("crates/*/specs/**/*.antt", recursive=True))
    laws = sorted(glob.glob("crates/*/proofs/*.antt"))
    return specs, laws


def mapping():
    specs, laws = sources()
    defined, proved = set(), set()
    foreign, tops = set(), set()
    own = {c.split("/")[1] for c in glob.glob("crates/*/")}
    for files, names in ((specs, defined), (laws, proved)):
        for f in files:
            text = code(open(f).read())
            tops |= set(re.findall(r"^(?:(?:unfoldable|abbrev|pub) )+(" + NAME + r") :", text, re.M)) if files is specs else set()
            tops |= set(re.findall(r"^(?:(?:unfoldable|abbrev|pub) )*(" + NAME + r") : .*→ (?:List|ℕ|Bool)", text, re.M))
            body = "\n".join(x for x in text.split("\n") if not x.startswith(("use ", "pub use ")))
            names |= declared(body)
            for m in re.finditer(r"^(?:pub )?use ([\w.']+)\.\{([^}]*)\}", text, re.M):
                part = m.group(1).split(".")
                if not (part[0] == "Rattle" and len(part) > 1 and part[1] in own):
                    foreign |= {n.strip().split(" as ")[0] for n in m.group(2).split(",")}
    functions = {n.replace("-", "_") for n in tops if n[0].islower()} | {"append"}

    def lemma(name):
        first, _, rest = name.partition("-")
        parts = rest.split("-")
        for j in range(len(parts), 0, -1):
            inner = "_".join(parts[:j])
            if first in OUTER and inner in functions:
                return first + "-" + "_".join([inner] + parts[j:])
        return name.replace("-", "_")

    turned = {}
    for name in sorted(defined | proved):
        if "-" not in name or name in foreign:
            continue
        name_ = name.replace("getD", "get_or")
        if name in CHOSEN:
            turned[name] = CHOSEN[name]
        elif name[0].isupper():
            turned[name] = "".join(p[:1].upper() + p[1:] for p in name_.split("-"))
        elif name in defined:
            turned[name] = name_.replace("-", "_")
        else:
            turned[name] = lemma(name_)
    return turned, foreign


def snake(name):
    if name[0].isupper():
        return "".join(p[:1].upper() + p[1:] for p in name.split("-"))
    return name.replace("-", "_")


def rewrite(text, turned, kept=None):
    """The text with its names turned. Where `kept` is given, names that it lacks and that no dot leads to are the
    text's own, as those that a definition's left side binds, and are turned too."""

    def one(m):
        name = m.group(0)
        if name in turned:
            return turned[name]
        if kept is None or "-" not in name or name in kept or text[m.start() - 1 : m.start()] == ".":
            return name
        return snake(name)

    return WORD.sub(one, text)


def quoted(text, turned):
    """Prose: only what stands in backticks is a name."""
    return re.sub(r"`[^`\n]*`", lambda m: rewrite(m.group(0), turned), text)


def by_line(text, turned, mark, kept=None):
    """The text with its names turned: of a comment, which `mark` begins, only those in backticks."""
    lines = []
    for line in text.split("\n"):
        head, found, tail = line.partition(mark)
        lines.append(rewrite(head, turned, kept) + found + quoted(tail, turned))
    return "\n".join(lines)


def imported(text):
    names = set()
    for m in re.finditer(r"^(?:pub )?use [\w.'-]+\.\{([^}]*)\}", text, re.M):
        names |= {n.strip().split(" as ")[0] for n in m.group(1).split(",")}
    return names


def main():
    turned, foreign = mapping()
    if sys.argv[1:] == ["list"]:
        for name in sorted(turned):
            if name != turned[name]:
                print(name, turned[name])
        return
    specs, laws = sources()
    own = set(specs + laws)
    files = specs + glob.glob("crates/*/proofs/**/*.antt", recursive=True) + glob.glob("crates/*/must-fail/*.edit")
    for f in files:
        old = open(f).read()
        if f.endswith(".edit"):
            new = "\n".join(quoted(x, turned) if x.startswith("#") else rewrite(x, turned) for x in old.split("\n"))
        else:
            new = by_line(old, turned, "--", imported(old) if f in own else None)
        if new != old:
            open(f, "w").write(new)
    for f in glob.glob("crates/*/src/**/*.rt", recursive=True):
        old = open(f).read()
        # a name with a dash stands in no code but in clauses; a string or a comment keeps what it says
        new = "\n".join(x if '"' in x else by_line(x, turned, "//") for x in old.split("\n"))
        if new != old:
            open(f, "w").write(new)
    for f in ["README.md"] + glob.glob("docs/*.md"):
        old = open(f).read()
        new = quoted(old, turned)
        if new != old:
            open(f, "w").write(new)


if __name__ == "__main__":
    main()
