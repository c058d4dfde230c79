#!/usr/bin/env python3
"""Writes the files that state KMIP's names and numbers from tables/*.toml.

    tables/generate.py           writes the files that differ, and names them
    tables/generate.py --check   writes none: names the files that differ, and ends with 1

`rt fmt` lays out the .rt files, so `rt` has to be there. Each written file says in its first line
where it comes from.
"""

import subprocess
import sys
import tempfile
import tomllib
from pathlib import Path

import curves
import encodings_tables
import enumerations
import names_page
import operations
import plain_tables
import tags
from values import read_enumerations

ROOT = Path(__file__).resolve().parent.parent
WRITERS = [tags, enumerations, encodings_tables, plain_tables, names_page, curves, operations]
HEAD = "Written by tables/generate.py from tables/*.toml: change these instead."
COMMENTS = {".rt": "// {}", ".antt": "-- {}", ".rs": "// {}", ".py": "# {}", ".bash": "# {}", ".md": "<!-- {} -->"}


def read_tables():
    """tags.toml as a list of numbers with names, and against it the enumerations, the curves and the operations."""
    read = {
        name: tomllib.loads((ROOT / "tables" / f"{name}.toml").read_text(encoding="utf-8"))
        for name in ("tags", "enumerations", "curves", "operations")
    }
    all_tags = tags.read_tags(read["tags"])
    found = read_enumerations(read["enumerations"], all_tags)
    return {
        "tags": all_tags,
        **found,
        "curves": curves.read_curves(read["curves"], found["enumerations"]),
        "operations": operations.read_operations(read["operations"], all_tags, found["enumerations"]),
    }


def with_head(path, text):
    """The text under a line that says where it comes from."""
    return f"{COMMENTS[Path(path).suffix].format(HEAD)}\n{text}"


def laid_out(texts):
    """The texts as `rt fmt` lays them out, crate by crate, in a folder of their own."""
    with tempfile.TemporaryDirectory() as folder:
        for path, text in texts.items():
            file = Path(folder, path)
            file.parent.mkdir(parents=True, exist_ok=True)
            file.write_text(text, encoding="utf-8")
        for crate in sorted(Path(folder, "crates").iterdir()):
            try:
                done = subprocess.run(["rt", "fmt"], cwd=crate, capture_output=True, text=True, check=False)
            except FileNotFoundError:
                sys.exit("tables/generate.py: rt is missing, which lays out the .rt files")
            if done.returncode:
                sys.exit(f"rt fmt refuses what is written for {crate.name}:\n{done.stdout}{done.stderr}")
        return {path: Path(folder, path).read_text(encoding="utf-8") for path in texts}


def written():
    """The text of each file that the tables give."""
    tables = read_tables()
    texts = {}
    for writer in WRITERS:
        for path, text in writer.files(tables):
            texts[path] = with_head(path, text)
    return laid_out(texts)


def main():
    words = sys.argv[1:]
    if words not in ([], ["--check"]):
        sys.exit("usage: tables/generate.py [--check]")
    differ = []
    for path, text in written().items():
        file = ROOT / path
        if not file.exists() or file.read_text(encoding="utf-8") != text:
            differ.append(path)
            if not words:
                file.write_text(text, encoding="utf-8")
    for path in differ:
        print(f"tables/generate.py: {path} {'differs from the tables' if words else 'is written'}")
    sys.exit(1 if words and differ else 0)


if __name__ == "__main__":
    main()
