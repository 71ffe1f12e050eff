#!/usr/bin/env python3
"""Brings the names of this repository's definitions and lemmas to Rattle's spelling: words in snake case, no middle dot in a name.

usage: tools/snake_case.py [ROOT]        rewrites crates/ below ROOT (here: the repository) in place, edits too

Run once, after port.py (docs/PORT.md). A name that begins with a small letter and has a capital in a word, as inBounds, gets underscores, as
in_bounds; types and facts keep their capitals, also behind a dash or an underscore, as in walk_Meets. It stops where two names would fall
together, or where one would be a name of the source that the same file has.
"""
import pathlib
import re
import sys

ROOT = pathlib.Path(sys.argv[1] if len(sys.argv) > 1 else pathlib.Path(__file__).resolve().parent.parent)
# Where the rule would part a number of the documents, or leave it in capitals.
OWN = {
    "of5E": "of_5e", "of3F": "of_3f", "framingAnd5D": "framing_and_5d", "frameBeganFF": "frame_began_ff", "afterFF": "after_ff",
    "startOf16": "start_of_16", "startOf32": "start_of_32", "oneAt30": "one_at_30", "oneAt31": "one_at_31", "twoAt30": "two_at_30",
    "twoAt31": "two_at_31", "steps1To4": "steps_1_to_4", "steps1To6": "steps_1_to_6", "steps3To6": "steps_3_to_6",
}
# lemmas whose definition takes the name, in the files of lemmas of these crates
LEMMAS = {"link": ["in_bounds", "fresh_ok", "line_ok", "after_next"], "kutarehopa": ["writes_nothing"], "dispatcher": ["in_bounds"]}
# and names of one file
IN_FILE = {"Lock.antt": {"resumes-low": "resumes-low_lem"}, "PlainPair.antt": {"line·is": "plain_line-is"}}
# a whole name of antt's, with what may stand in one
NAME = re.compile(r"(?<![\w'◌→≤<≡-])[^\W\d_](?:[\w'·]|-(?=[\w·])|[→≤<≡](?=\w))*")
CHUNK = re.compile(r"(?<![A-Za-z0-9])[a-z][a-z0-9]*[A-Z][A-Za-z0-9]*")
# what isn't respelled: strings, also those that go on in the next line, and the paths of an older form in edits
STRING = re.compile(r'b?"(?:[^"\\]|\\.)*"', re.S)


def chunk(m):
    word = m.group()
    if word in OWN:
        return OWN[word]
    return re.sub(r"(?<=[a-z0-9])(?=[A-Z])|(?<=[A-Z])(?=[A-Z][a-z])", "_", word).lower()


def respelled(name):
    if name.startswith("Rattle"):
        return name
    return CHUNK.sub(chunk, name).replace("·", "-")


def names_of(text):
    return {m.group() for m in NAME.finditer(STRING.sub('""', text))}


def turn(text):
    out, at = [], 0
    for s in STRING.finditer(text):
        out.append(NAME.sub(lambda m: respelled(m.group()), text[at:s.start()]))
        out.append(s.group())
        at = s.end()
    out.append(NAME.sub(lambda m: respelled(m.group()), text[at:]))
    return "".join(out)


def of_lemmas(path):
    """The crate of a file of lemmas, which isn't the proof of one function; else nothing."""
    parts = path.relative_to(ROOT / "crates").parts
    return parts[0] if len(parts) > 2 and parts[1] == "proofs" and path.suffix == ".antt" and path.name not in ("Proof.antt", "Invariants.antt", "Answers.antt") else None


def with_lem(text, names):
    """Those names with _lem, where they stand alone or behind a module's other name, and head no path."""
    for name in names:
        text = re.sub(rf"(?<![\w'·-])(?<!proofs\.)(?<!Receiver\.)(?<!Sender\.){name}(?![\w'·.-])", name + "_lem", text)
    return text


def main():
    files = [p for p in sorted((ROOT / "crates").rglob("*")) if p.suffix in (".antt", ".rt", ".edit") and "out" not in p.relative_to(ROOT).parts]
    texts = {p: p.read_text() for p in files}
    for p in files:
        if of_lemmas(p):
            texts[p] = with_lem(texts[p], LEMMAS.get(of_lemmas(p), []))
            for old, new in IN_FILE.get(p.name, {}).items():
                texts[p] = re.sub(rf"(?<![\w'·.-]){re.escape(old)}(?![\w'·-])", new, texts[p])
    wrong = []
    if not any(respelled(name) != name for p in files if p.suffix == ".antt" for name in names_of(re.sub(r"--.*", "", p.read_text()))):
        print("every name is as Rattle spells it: nothing to do")
        return 1
    for p, text in texts.items():
        if p.suffix != ".antt" or p.name == "Proof.antt":
            continue
        code = re.sub(r"^\s*(--|//).*", "", text, flags=re.M)
        there = names_of(re.sub(r"\bRattle[\w.]*", "", code))
        made = {}
        for name in there:
            new = respelled(name)
            if new != name and new in there:
                wrong.append(f"{p.relative_to(ROOT)}: {name} falls together with {new}")
            if new in made and made[new] != name:
                wrong.append(f"{p.relative_to(ROOT)}: {name} and {made[new]} fall together")
            made[new] = name
    if wrong:
        print("\n".join(wrong))
        return 1
    for p, text in texts.items():
        new = turn(text)
        if new != p.read_text():
            p.write_text(new)
    return 0


if __name__ == "__main__":
    sys.exit(main())
