#!/usr/bin/env python3
"""What can be looked at in the documents without running what they show.

    documents.py FOLDER    FOLDER is the repository; prints what is wrong, and ends with 1 where something is

Links lead to files and headings that are there; README has at most 100 lines; the examples in the READMEs of crates stand
word for word in the files that these name; the names in them and in the documents of NAMED are names in the code; and in
them and in the documents of PLAIN no sentence has more than 40 words.
"""

import re
import sys
from pathlib import Path

MOST_LINES = 100
MOST_WORDS = 40
PLACES = ["*.md", "docs/*.md", "crates/*/*.md", "clients/*.md", "clients/*/*.md", "tools/live/*.md"]
PLAIN = [
    "README.md",
    *(f"docs/{name}.md" for name in (
        "ARCHITECTURE", "BENCHMARKS", "CALL", "DECISIONS", "DIFFERENCES", "LIVE", "PROGRAM", "PROVED")),
]
NAMED = [f"docs/{name}.md" for name in ("ARCHITECTURE", "DECISIONS", "PROVED")]
CRATES = "crates/*/README.md"
SOURCES = ["crates.txt", "crates/*/src/**/*.rt", "crates/*/specs/**/*.antt", "crates/*/proofs/**/*.antt"]


def without_code(text):
    """The text without its blocks of code."""
    text = re.sub(r"^ *```.*?^ *```$", "", text, flags=re.M | re.S)
    return re.sub(r"^    .*$", "", text, flags=re.M)


def anchors_of(path):
    """The anchors that the headings of a document have."""
    headings = re.findall(r"^#+ (.*)$", re.sub(r"```.*?```", "", path.read_text(encoding="utf-8"), flags=re.S), re.M)
    return {re.sub(r"[^\w\- ]", "", heading.lower()).replace(" ", "-") for heading in headings}


def faults_of_links(path):
    """Links of a document that lead nowhere."""
    for target in re.findall(r"\]\(([^)\s]+)\)", without_code(path.read_text(encoding="utf-8"))):
        if "://" in target:
            continue
        file, _, anchor = target.partition("#")
        to = (path.parent / file).resolve() if file else path
        if not to.exists():
            yield f"{target}: there is no such file"
        elif anchor and anchor not in anchors_of(to):
            yield f"{target}: there is no such heading"


def faults_of_examples(path, top):
    """Examples that do not stand in the file that the text before them names last."""
    text = path.read_text(encoding="utf-8")
    for place in re.finditer(r"```rust\n(.*?)```", text, flags=re.S):
        names = re.findall(r"\(`(crates/\S+\.rt)`\)", text[: place.start()])
        if not names:
            yield "an example names no file"
            continue
        source = [line.strip() for line in (top / names[-1]).read_text(encoding="utf-8").splitlines()]
        joined = "\n".join(source)
        for part in re.split(r"^\.\.\n", place.group(1), flags=re.M):
            wanted = "\n".join(line.strip() for line in part.strip().splitlines())
            if wanted not in joined:
                yield f"{names[-1]} has no lines {wanted.splitlines()[0]!r} .."


def words_of_sources(top):
    """All words of the crates' code, definitions and proofs."""
    words = set()
    for place in SOURCES:
        for path in top.glob(place):
            words.update(re.findall(r"\w+", path.read_text(encoding="utf-8")))
    return words


def faults_of_names(path, words):
    """Names in code marks, as `IsCall` or `call.exchange`, that the code has not."""
    for name in re.findall(r"`([A-Za-z]\w*(?:(?:::|\.)\w+)*)`", without_code(path.read_text(encoding="utf-8"))):
        # the name of a file ends in its kind
        if not re.search(r"\.(antt|c|h|json|md|py|rs|rt|sh|toml|txt)$", name) and not words.issuperset(re.split(r"::|\.", name)):
            yield f"{name}: the code has no such name"


def sentences_of(text):
    """The sentences of a document: those of its paragraphs, items of lists and cells of tables."""
    text = re.sub(r"\]\([^)]*\)", "]", without_code(text))
    for block in re.split(r"\n\s*\n|\n(?=\s*[-|#>\d])", text):
        for cell in block.split("|"):
            yield from re.split(r"(?<=[.!?:])[)*]*\s+(?=[A-Z`*(\[])", " ".join(cell.split()))


def faults_of_sentences(path):
    """Sentences that are too long."""
    for sentence in sentences_of(path.read_text(encoding="utf-8")):
        count = len([word for word in sentence.split() if re.search(r"\w", word)])
        if count > MOST_WORDS:
            yield f"a sentence of {count} words: {sentence[:70]} .."


def faults(top):
    """What is wrong, in all documents."""
    for path in sorted({path for place in PLACES for path in top.glob(place)}):
        name = path.relative_to(top)
        for fault in faults_of_links(path):
            yield f"{name}: {fault}"
    count = len((top / "README.md").read_text(encoding="utf-8").splitlines())
    if count > MOST_LINES:
        yield f"README.md: {count} lines"
    crates = sorted(top.glob(CRATES))
    for path in crates:
        for fault in faults_of_examples(path, top):
            yield f"{path.relative_to(top)}: {fault}"
    words = words_of_sources(top)
    for path in (*(top / name for name in NAMED), *crates):
        for fault in faults_of_names(path, words):
            yield f"{path.relative_to(top)}: {fault}"
    for path in (*(top / name for name in PLAIN), *crates):
        for fault in faults_of_sentences(path):
            yield f"{path.relative_to(top)}: {fault}"


def main():
    """Prints the faults."""
    if len(sys.argv) != 2:
        sys.exit("usage: documents.py FOLDER")
    found = list(faults(Path(sys.argv[1]).resolve()))
    print("\n".join(found) if found else "nothing is wrong")
    sys.exit(1 if found else 0)


if __name__ == "__main__":
    main()
