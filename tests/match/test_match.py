#!/usr/bin/env python3
"""Holds demo/match.py to the shared cases of cases.json, which web/test-match.mjs holds web/match.mjs to, and to random edits, on which both
must find the same. Assumes that the hunt's programs are built. Any failure makes the status non-zero.

A case has files, each with a name and its text (in UTF-8 or in the encoding named) or its bytes in hexadecimal, as often as `times` says.
{a0} stands for the hexadecimal digits of the key of that name, {a0|lower} and the like for another way of writing them. What must be found:
each key by name, where it was, its state, refusal and sentence; the sentences of what could not be read; who is missing; the refusal to join,
or the joined table and what it shows. A sentence is its name in web/words.mjs and what stands in its braces. The digest of the edits is that of
what both implementations found when they were written; one that finds something else says the digest that it gets."""
import hashlib
import json
import os
import re
import sys

HERE = os.path.dirname(os.path.abspath(__file__))
sys.dont_write_bytecode = True
sys.path.insert(0, os.path.join(HERE, "..", "..", "demo"))
import match
import programs

with open(os.path.join(HERE, "cases.json"), encoding="utf-8") as cases_file:
    SHARED = json.load(cases_file)
KEYS = {name: bytes.fromhex(digits) for name, digits in SHARED["keys"].items()}
# Sentences that another place than reading and examining says.
ELSEWHERE = {"caution", "numbers"}
WAYS = {
    None: lambda digits: digits,
    "lower": str.lower,
    "wrap": lambda digits: "\n".join(re.findall(".{1,60}", digits)),
    "odd wrap": lambda digits: "\n".join(re.findall(".{1,37}", digits)),
    "pairs": lambda digits: " ".join(re.findall("..", digits)),
    "colons": lambda digits: ":".join(re.findall("..", digits)),
    "0x": lambda digits: ", ".join("0x" + pair for pair in re.findall("..", digits)),
}


def filled(template):
    """A text with the keys that it names."""
    return re.sub(r"\{([^{}|]+)(?:\|([^{}|]+))?\}", lambda name: WAYS[name.group(2)](SHARED["keys"][name.group(1)]), template)


def content_of(file):
    content = bytes.fromhex(filled(file["bytes"])) if "bytes" in file else filled(file["text"]).encode(file.get("encoding", "utf-8"))
    return content * file.get("times", 1)


def said(sentence):
    """A sentence by its name and what stands in its braces, which may be sentences too."""
    if not isinstance(sentence, list):
        return sentence
    name, values = sentence[0], sentence[1] if len(sentence) > 1 else {}
    return re.sub(r"\{(\w+)\}", lambda brace: str(said(values[brace.group(1)])), match.WORDS[name])


def names_in(sentence):
    """The names of a sentence and of those inside it."""
    if isinstance(sentence, list):
        yield sentence[0]
        for value in (sentence[1] if len(sentence) > 1 else {}).values():
            yield from names_in(value)


def found_in(library, files):
    """What match.py finds in these files: the keys and problems of each, and the match."""
    keys, problems = [], []
    for name, content in files:
        some, wrong = match.keys_of_file(library, content, name)
        keys += some
        problems += wrong
    return match.examine(library, keys), problems


SENSORS = [int(position) for position in programs.player(["sensors"])]


def outcome(examined, problems):
    """What was found, in the shape of a case."""
    board = examined.board
    sensor_of = SENSORS.index if board and board.positions == len(SENSORS) else lambda position: None
    return {
        "keys": [{"is": key.bytes, "from": key.origin, "state": key.state, "refusal": key.refusal, "says": key.words}
                 for key in examined.keys],
        "problems": problems, "missing": examined.missing_words, "refusal": examined.refusal,
        "joined": examined.joined and examined.joined.hex().upper(),
        "shows": examined.joined and match.joined_words(examined.joined, board, sensor_of),
    }


def wanted(case):
    return {
        "keys": [{"is": KEYS[key["is"]], "from": key["from"], "state": key["state"], "refusal": key.get("refusal"),
                  "says": said(key.get("says"))} for key in case["keys"]],
        "problems": [said(sentence) for sentence in case["problems"]], "missing": said(case.get("missing")), "refusal": case.get("refusal"),
        "joined": case.get("joined"), "shows": said(case.get("shows")),
    }


def check_cases(library):
    for case in SHARED["cases"]:
        found = outcome(*found_in(library, [(file["name"], content_of(file)) for file in case["files"]]))
        must = wanted(case)
        for part in must:
            if found[part] != must[part]:
                sys.exit("test_match: %s: %s are\n  %r\nand must be\n  %r" % (case["name"], part, found[part], must[part]))
    sentences = [sentence for case in SHARED["cases"] for sentence in
                 case["problems"] + [key.get("says") for key in case["keys"]] + [case.get("missing"), case.get("shows")]]
    said_names = {name for sentence in sentences for name in names_in(sentence)}
    if said_names != set(match.WORDS) - ELSEWHERE:
        sys.exit("test_match: no case says, or words.mjs lacks: %s" % ", ".join(said_names ^ (set(match.WORDS) - ELSEWHERE)))


class Drawn:
    """Numbers that are the same each time and in both tests: Marsaglia's xorshift of 32 bits."""

    def __init__(self, seed):
        self.state = seed

    def below(self, limit):
        self.state ^= self.state << 13 & 0xFFFFFFFF
        self.state ^= self.state >> 17
        self.state ^= self.state << 5 & 0xFFFFFFFF
        return self.state % limit


def edited(drawn, content):
    """The bytes with one to four edits: a byte changed, some taken out, put in or doubled."""
    signs = bytes.fromhex(SHARED["edits"]["signs"])
    for _ in range(1 + drawn.below(4)):
        kind, at = drawn.below(5), drawn.below(len(content) + 1)
        end = min(len(content), at + 1 + drawn.below(40))
        if kind == 0:
            content = content[:at] + bytes([drawn.below(256)]) + content[at + 1:]
        elif kind == 1:
            content = content[:at] + content[end:]
        elif kind == 2:
            content = content[:at] + content[at:end] + content[at:]
        else:
            sign = drawn.below(len(signs))
            content = content[:at] + signs[sign:sign + 1 + drawn.below(3)] + content[at:]
    return content


def random_file(drawn, good):
    """A good file with edits, or bytes drawn at random."""
    if drawn.below(4) == 0:
        return bytes(drawn.below(256) for _ in range(drawn.below(200)))
    return edited(drawn, good[drawn.below(len(good))])


def check_edits(library):
    """Whatever the bytes, something is found or said; and what, in all of them, is what the other implementation finds."""
    drawn, digest = Drawn(SHARED["edits"]["seed"]), hashlib.sha256()
    good = [content_of(file) for file in SHARED["edits"]["files"]]
    for _ in range(SHARED["edits"]["rounds"]):
        examined, problems = found_in(library, [("one", random_file(drawn, good)), ("other", random_file(drawn, good))])
        if not examined.keys and not problems:
            sys.exit("test_match: nothing is found and nothing is said")
        lines = ["%s %s %s %s %s" % (key.origin, key.state, key.refusal or 0, key.bytes.hex().upper(), "-" if key.words is None else "says")
                 for key in examined.keys]
        joined = "none" if examined.joined is None else examined.joined.hex().upper()
        lines.append("%d %d %s" % (len(problems), examined.refusal or 0, joined))
        digest.update("".join(line + "\n" for line in lines).encode())
    if digest.hexdigest() != SHARED["edits"]["sha256"]:
        sys.exit("test_match: after %d rounds of edits the digest is %s" % (SHARED["edits"]["rounds"], digest.hexdigest()))


def main():
    library = programs.Library()
    check_cases(library)
    check_edits(library)
    programs.end_children()
    print("test_match: %d cases and %d rounds of edits, all as they must be" % (len(SHARED["cases"]), SHARED["edits"]["rounds"]))


if __name__ == "__main__":
    main()
