#!/usr/bin/env python3
"""Brings this repository's own names of specs/ and proofs/ to snake case, as docs/PORT.md says.

usage: python3 tools/snake_names.py [--list]     at the top of the repository; --list prints old and new name, and writes nothing

It was run once, behind the kit's port.py. Words that are written in camel case or with dashes (definitions, lemmas, fields, variables)
get underscores; case names with a dash (`Fips-status`) lose it (`FipsStatus`). What another library declares keeps its spelling, as do
the names of src/, strings, types and modules. In specs/, src/ and the edits of must-fail/ every such word turns; in proofs/F/ a word
behind a dot turns only if a record of specs/ has that field, since the other fields there are made by the prover. In comments and
pages a word turns between backquotes, in a comment also where the file's own code has it. docs/landings/ and docs/CHANGES.md tell
what was, and stay.
"""
import collections
import glob
import re
import sys

TOKEN = re.compile(r"[^\s(){}.;,@\"«»]+")
CAMEL = re.compile(r"[a-z][a-z0-9_]*[A-Z][A-Za-z0-9_]*'*$")
DASHED = re.compile(r"[A-Za-z][A-Za-z0-9_]*(?:-[A-Za-z0-9_]+)+'*$")
COMMENT = re.compile(r"(?<![^\s(){}.;,@\"«»])--[^\n]*|//[^\n]*")
STRING = re.compile(r'"(?:[^"\\\n]|\\.)*"')
SPAN = re.compile(r"`[^`\n]+`")
USE = re.compile(r"^(?:pub )?use +([^{;\n]+?)\.\{([^}]*)\}", re.M)
WORDS = re.compile(r"[A-Za-z][A-Za-z0-9_']*(?:-[A-Za-z0-9_']+)*")
# Names that would fall together with a definition: the lemma ends in _lem, as in the library; the last three are the remaining ones.
APART = {
    "Active-slot": "TheActiveSlot",
    "bit-and": "bit_and_lem",
    "bit-or": "bit_or_lem",
    "bit-xor": "bit_xor_lem",
    "buffer-tests": "buffer_tests_lem",
    "burns-in": "burns_in_lem",
    "code-of": "code_of_lem",
    "command-tests": "command_tests_lem",
    "direct-tests": "direct_tests_lem",
    "drive-tests": "drive_tests_lem",
    "entry-bytes": "entry_bytes_lem",
    "has-form": "has_form_lem",
    "holdsAt": "is_held_at",
    "in-front": "in_front_lem",
    "is-at": "is_at_lem",
    "is-yes": "is_yes_lem",
    "isWord": "is_a_word",
    "kind-is": "kind_is_lem",
    "lent-tests": "lent_tests_lem",
    "life-cycle": "life_cycle_lem",
    "no-partition": "no_partition_lem",
    "not-slot": "not_slot_lem",
    "pair-in": "pair_in_lem",
    "partition-tests": "partition_tests_lem",
    "place-good": "place_good_lem",
    "put-part": "put_part_lem",
    "request-bytes": "request_bytes_lem",
    "run-part": "run_part_lem",
    "u32-at": "u32_at_lem",
    "word-at": "word_at_lem",
    "word-by": "word_by_lem",
    "word-from": "word_from_lem",
    "word-tests": "word_tests_lem",
    "zero-cell": "zero_cell_lem",
}


def snake(word):
    if word in APART:
        return APART[word]
    if word[0].isupper():  # a case of a type: FipsStatus
        head, *rest = word.split("-")
        return head + "".join(part[:1].upper() + part[1:] for part in rest)
    word = re.sub(r"(?<=[a-z0-9])([A-Z])", r"_\1", word)
    return word.replace("-", "_").lower()


def read(path):
    with open(path, encoding="utf-8") as f:
        return f.read()


def code_of(text):
    return STRING.sub('""', COMMENT.sub("", text))


def own(path):
    return path.startswith("Rattle.") and path.split(".")[1] in CRATES and ".proofs." not in path


def made(path):
    return ".declared." in path or path.endswith(".TheVariants")


CRATES = [p.split("/")[1] for p in glob.glob("crates/*/")]
SPECS = sorted(glob.glob("crates/*/specs/*.antt")) + sorted(glob.glob("crates/*/proofs/*.antt"))
PROOFS = sorted(glob.glob("crates/*/proofs/*/**/*.antt", recursive=True))
SOURCES = sorted(glob.glob("crates/*/src/**/*.rt", recursive=True))
EDITS = sorted(glob.glob("crates/*/must-fail/*.edit"))
PAGES = ["README.md"] + [p for p in sorted(glob.glob("docs/*.md")) if not p.endswith(("PORT.md", "CHANGES.md"))]


def collect():
    """The words to turn, and those of them that a record declares as fields."""
    words, fields, foreign = set(), set(), set()
    for path in SPECS + PROOFS + SOURCES:
        text = code_of(read(path))
        for m in USE.finditer(text.replace("ghost use", "use")):
            if not own(m[1]) or made(m[1]):
                foreign.update(t for item in m[2].split(",") for t in item.split()[:1])
    for path in SPECS:
        text = code_of(read(path))
        body = USE.sub("", text)
        words.update(t for t in TOKEN.findall(body) if CAMEL.match(t) or DASHED.match(t))
        for m in re.finditer(r"^(?:pub |abbrev |unfoldable )*(?:record|data) .*?where\n((?:[ \t]+.*\n|\n)*)", text, re.M):
            for line in m[1].splitlines():
                head = re.match(r"\s+(?:pub )?((?:[^\s(){}.;,@\"«»:]+ +)+): ", line)
                if head:
                    fields.update(head[1].split())
    bare = {w.rstrip("'") for w in words}
    words = {w for w in bare if w not in foreign}
    return words, fields & words


def turn(text, words, fields=None):
    """The text with its words turned; with `fields`, behind a dot those alone, but for paths of this repository."""

    def one(m):
        word = m[0].rstrip("'")
        tail = m[0][len(word):]
        if word not in words:
            return m[0]
        before = text[:m.start()]
        if fields is not None and before.endswith(".") and word not in fields:
            path = re.search(r"[^\s(){};,@\"«»]*$", before)[0]
            if not (path.startswith("Rattle.") and ".specs." in path):
                return m[0]
        return snake(word) + tail

    return TOKEN.sub(one, text)


def turn_spans(text, words):
    return SPAN.sub(lambda m: WORDS.sub(lambda w: snake(w[0]) if w[0] in words else w[0], m[0]), text)


def turn_code(text, words, fields=None):
    """Code, strings and comments, each by its rule."""
    here = set(t.rstrip("'") for t in TOKEN.findall(code_of(text))) & words
    out, at = [], 0
    for m in re.finditer(COMMENT.pattern + "|" + STRING.pattern, text):
        out.append(turn(text[at:m.start()], words, fields))
        piece = m[0]
        if not piece.startswith('"'):
            piece = turn_spans(piece, words)
            piece = WORDS.sub(lambda w: snake(w[0]) if w[0] in here and "-" in w[0] + "-" else w[0], piece)
        out.append(piece)
        at = m.end()
    out.append(turn(text[at:], words, fields))
    return "".join(out)


def clashes(words):
    """Words of one file that would fall together with another word of it."""
    found = []
    for path in SPECS + SOURCES:
        tokens = set(t.rstrip("'") for t in TOKEN.findall(code_of(read(path))))
        new = collections.defaultdict(set)
        for t in tokens:
            new[snake(t) if t in words else t].add(t)
        # in src/ a contract may cite the definition by the name of the function that it is of
        found += [(path, n, sorted(olds)) for n, olds in sorted(new.items()) if len(olds) > 1 and path in SPECS]
    return found


def main():
    words, fields = collect()
    if "--list" in sys.argv:
        for w in sorted(words):
            print(w, snake(w))
        for clash in clashes(words):
            print("clash:", *clash)
        return
    said = clashes(words)
    if said:
        sys.exit("names would fall together: " + "; ".join(map(str, said)))
    for path in SPECS + PROOFS + SOURCES + EDITS + PAGES:
        text = read(path)
        if path in PAGES:
            new = turn_spans(text, words)
        elif path in EDITS:
            new = "\n".join(
                turn(line, words) if line.startswith(("old: ", "new: ")) else turn_spans(line, words) for line in text.split("\n")
            )
        else:
            new = turn_code(text, words, fields if path in PROOFS else None)
        if new != text:
            with open(path, "w", encoding="utf-8") as f:
                f.write(new)


main()
