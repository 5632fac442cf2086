#!/usr/bin/env python3
"""Brings the repository's own words in specs/ and proofs/ to snake case, as today's Rattle spells them.

Run once at the top of the checkout, straight after the toolchain's port.py. A word here is a definition, a lemma, a field, a
constructor or a variable of an .antt file: `netOf` becomes `net_of`, `is-link` becomes `is_link`. Types and modules stay in
camel case, names that Rattle makes (`returns-2`, `loop-x-preserved`) and names of the toolchain's library stay as they are.
The words turn in specs/, in proofs/, in the clauses of src/ and in code spans of the pages; strings stay. It prints what it
turned, and which names would fall together: those have a spelling of their own in TOLD.
"""
import collections
import pathlib
import re
import sys

ROOT = pathlib.Path(__file__).resolve().parent.parent
WORD = re.compile(r"[^\s(){}\[\].,;:@\"«»`|]+")
USE = re.compile(r"^(?:ghost )?use ([^\s{;]+?)(?:\.\{([^}]*)\})?(?: as \S+)?;?$", re.M)
QUIET = re.compile(r'"(?:[^"\\\n]|\\.)*"')
OWN = "Rattle."

# Spellings that the rule doesn't give: a slip of port.py, and names that would fall together. A lemma that would have its
# function's name gets `_lem`.
TOLD = {
    "of_Tree": "of_tree",
    "at-end": "at_the_end",
    "at-start": "at_the_start",
    "bare-row": "bare_row_lem",
    "change-verdict": "same_change_verdict",
    "link-verdict": "same_link_verdict",
    "firstBy": "first_link_by",
    "hung-by": "hung_by_lem",
    "hung-row": "hung_row_lem",
    "is-given": "is_given_lem",
    "is-linking": "is_linking_lem",
    "is-record": "is_record_lem",
    "is-refused": "is_refused_lem",
    "is-unread": "is_unread_lem",
    "link-at": "link_at_lem",
    "names-again": "names_again_lem",
    "noLess": "none_less",
    "no-link": "no_such_link",
    "noOffer": "nothing_offers",
    "oneMore": "with_one_more",
    "refusal-line": "refusal_line_lem",
    "root-row": "root_row_lem",
    "table-of": "table_of_lem",
    "tooMany": "over_most",
    "usable-by": "usable_by_lem",
    "verdict-of": "verdict_of_lem",
    "wrong-ends": "bad_ends",
}


def crates():
    return sorted(d.name for d in (ROOT / "crates").iterdir() if (d / "src").is_dir())


def snake(word):
    word = re.sub(r"(?<=[a-z0-9₀₁₂])([A-Z])", lambda m: "_" + m[1].lower(), word)
    return word.replace("-", "_").replace("′", "'")


def odd(word):
    """A word that isn't in snake case yet: it begins small, and has a dash between letters, a capital or an old prime."""
    return bool(re.match(r"[a-z]", word)) and bool(re.search(r"[\w']-[\w]|[a-z0-9][A-Z]|′", word)) and "→" not in word


def files(*globs):
    for name in crates():
        for glob in globs:
            for path in sorted((ROOT / "crates" / name).glob(glob)):
                yield path


def imported(own):
    """What `use` lines take from the toolchain's library."""
    words = set()
    for path in files("specs/**/*.antt", "proofs/**/*.antt", "src/*.rt"):
        for module, items in USE.findall(path.read_text()):
            if module.split(".")[0] == "Rattle" and module.split(".")[1] in own:
                continue
            words |= {w.split(" as ")[0].strip() for w in items.split(",")}
    return words


def written():
    """The words that stand in specs/ and in the lemmas of proofs/, `use` lines and comments aside."""
    words = set()
    for path in files("specs/*.antt", "proofs/*.antt"):
        for line in path.read_text().splitlines():
            line = line.split("--")[0]
            if not re.match(r"(?:pub )?(?:use|mod)\b", line):
                words.update(WORD.findall(line))
    return words


def said():
    """The words in code spans of the pages."""
    pages = [ROOT / "README.md", *(ROOT / "docs").rglob("*.md")]
    return {w for page in pages for span in re.findall(r"`[^`\n]+`", page.read_text()) for w in WORD.findall(span)}


def table():
    own = set(crates())
    library = imported(own)
    words = written()
    turned = dict(TOLD)
    for word in words:
        if odd(word) and word not in library:
            turned.setdefault(word, snake(word))
    return turned, words, library


def together(turned, words, library):
    """Names that would fall together with another of this repository or with one taken from the library."""
    came = collections.defaultdict(set)
    for old, new in turned.items():
        came[new].add(old)
    for new, olds in sorted(came.items()):
        others = set(olds)
        if new in words and new not in turned:
            others.add(new)
        if new in library:
            others.add(new + " (library)")
        if len(others) > 1:
            print("together:", new, "from", ", ".join(sorted(others)))


def turn(text, turned):
    count = 0

    def one(m):
        nonlocal count
        new = turned.get(m[0])
        if new is None:
            return m[0]
        if new.endswith("_lem") and m.string[m.start() - 1 : m.start()] == ".":
            new = snake(m[0])  # a step of a proof by hand, named for the function that it calls
        count += 1
        return new

    out, at = [], 0
    for quiet in QUIET.finditer(text):
        out += [WORD.sub(one, text[at : quiet.start()]), quiet[0]]
        at = quiet.end()
    out.append(WORD.sub(one, text[at:]))
    return "".join(out), count


def main(argv):
    turned, words, library = table()
    together(turned, words, library)
    if argv == ["--list"]:
        for old, new in sorted(turned.items()):
            print(old, new)
        return
    total = 0
    for path in files("specs/**/*.antt", "proofs/**/*.antt", "src/*.rt", "must-fail/*.edit"):
        text, count = turn(path.read_text(), turned)
        if count and argv != ["--check"]:
            path.write_text(text)
        total += count
    # port.py turned some of these words itself, and no page
    pages = turned | {w: snake(w) for w in said() if odd(w) and w not in turned and w not in library and snake(w) in words}
    for path in [ROOT / "README.md", *sorted((ROOT / "docs").rglob("*.md"))]:
        if path.name.startswith("PORT"):
            continue
        text = re.sub(r"`[^`\n]+`", lambda m: turn(m[0], pages)[0], path.read_text())
        if argv != ["--check"]:
            path.write_text(text)
    print(f"{len(turned)} names turned, in {total} places")


main(sys.argv[1:])
