#!/usr/bin/env python3
"""Prints each public call that takes memory beside a test that makes it, and ends with status 1 where one has none.

A body that always answers want of memory meets every clause, so that a test has to see each such call come to its
end. A call takes memory where it answers `OutOfMemory` or an error that may be that. Told apart are:

- a public function, which a test calls by its name;
- a public method of a type, which a test calls as `Type::name(`, or as `.name(` in a file that names the type, or that
  takes something from a file of its crate that does: several types have methods of one name;
- `try_clone`, `read` and `show` of each type that has the trait. Such a call counts where its type is written: as
  `helper::<Type>(`, where the helper is generic and makes that call on a value of its type parameter, itself or by
  another such helper of its crate, as `Type::read(`, or as `from_slice::<Type>(` and its like.

A function or method that no test names may be made by a function that a test makes: it is printed as
`TEST, through NAME`. Tests count in the crate that has the call and in the crates above it: a function where the file
takes its name from that crate.

It reads the sources alone: whether the test compares what the call gives is for its reader to see.
"""
import glob
import os
import re
import sys

TOP = os.path.dirname(os.path.dirname(os.path.abspath(__file__)))
CRATES = os.path.join(TOP, "crates")
ERRORS = r"OutOfMemory|ReadError|WireError|LinkError|RequestReadError|ResponseError|DiagError|AllocError|Error"
TRAITS = {"TryClone": "try_clone", "ReadItem": "read", "ShowItem": "show"}
# what a generic body writes where it makes the call on its type parameter T
MAKES = {
    "try_clone": r"\.try_clone\(|clone_optional",
    "read": r"\bT::read\(|\b(?:read_one|read_opt|read_list|read_root|from_slice)::<T\b|\bread_root\(|\bfrom_slice\(",
    "show": r"\.show\(",
}


def is_test_file(path):
    """Whether a file holds tests alone."""
    name = os.path.basename(path)
    return "tests" in name or re.search(r"/kmip_(\w+_)?tests/|/tests/", path) is not None


def without_comments(text):
    """The text with its comments taken out."""
    return re.sub(r"//[^\n]*", "", text)


def body_at(text, start):
    """The braces that open at or after a place, and what they hold."""
    depth, first = 0, text.index("{", start)
    for place in range(first, len(text)):
        depth += {"{": 1, "}": -1}.get(text[place], 0)
        if depth == 0:
            return text[first:place + 1]
    return text[first:]


def signatures(text):
    """Each function of a text: whether it is public, its name, its signature, and where it stands."""
    for found in re.finditer(r"(pub )?fn (\w+)(<[^{;]*?>)?\(", text):
        end = re.search(r"\n\s*(?:requires|ensures|ghost)\b|[{;]", text[found.end():])
        stop = found.end() + (end.start() if end else 0)
        yield bool(found.group(1)), found.group(2), text[found.start():stop], found.start()


def takes_memory(signature):
    """Whether what is returned may be want of memory."""
    answer = signature.rpartition("->")[2] if "->" in signature else ""
    return bool(re.search(r"Result<.*\b(?:%s)\b" % ERRORS, answer, re.S)) or bool(re.match(r"\s*Result<", answer))


def imported(text, crate):
    """What a file takes from each crate: the names of its `use` lines, of its own crate too."""
    names = {}
    for path, group, name in re.findall(r"use ([\w:]+?)::(?:\{([^}]*)\}|(\w+));", text):
        source = path.split("::")[0].replace("crate", crate)
        names.setdefault(source, set()).update(re.findall(r"\w+", group or name))
    return names


def exported(crate):
    """The names that a crate's root hands out, and whether it hands out whole modules."""
    text = without_comments(open(os.path.join(crate, "src", "lib.rt")).read())
    names, modules = set(), set(re.findall(r"pub mod (\w+)", text))
    for path, group in re.findall(r"pub use ([\w:]+)(?:::\{([^}]*)\})?;", text):
        names.update(re.findall(r"\w+", group) if group else [path.split("::")[-1]])
    return names, modules


def impls(text):
    """Each block of methods: the trait or None, the type, the block, and where it stands."""
    for found in re.finditer(r"\nimpl(?:<[^{]*?>)? (?:([\w<>: ]+?) for )?(\w+)(<[^{]*?>)? (?:where [^{]*)?\{", text):
        yield found.group(1), found.group(2), body_at(text, found.end() - 1), found.start()


def public_calls(crate):
    """The public calls of a crate that take memory, as (kind, type, name)."""
    names, modules = exported(crate)
    calls = set()
    for path in sorted(glob.glob(os.path.join(crate, "src", "**", "*.rt"), recursive=True)):
        if is_test_file(path):
            continue
        text = without_comments(open(path).read())
        module = os.path.relpath(path, os.path.join(crate, "src")).split(os.sep)[0].removesuffix(".rt")
        blocks = list(impls("\n" + text))
        for trait, kind, block, _ in blocks:
            if trait in TRAITS:
                calls.add((trait, kind, TRAITS[trait]))
            elif trait is None and (kind in names or module in modules):
                for public, name, signature, _ in signatures(block):
                    if public and takes_memory(signature):
                        calls.add(("method", kind, name))
        whole = text
        for _, _, block, _ in blocks:
            whole = whole.replace(block, "{}")
        for public, name, signature, _ in signatures(whole):
            if public and takes_memory(signature) and (name in names or module in modules):
                calls.add(("function", "", name))
    return calls


def test_files():
    """Each test file: its short name, its text without comments, and what it takes from each crate."""
    files = []
    for path in sorted(glob.glob(os.path.join(CRATES, "*", "src", "**", "*.rt"), recursive=True)):
        if is_test_file(path):
            where = os.path.relpath(path, CRATES).replace("/src", "").removesuffix(".rt")
            text = without_comments(open(path).read())
            files.append((where, text, imported(text, where.split("/")[0])))
    return files


def helpers(files):
    """The generic functions of each crate's test files, with the calls that each makes on its type parameter, itself or
    by another of them."""
    made, bodies = {}, {}
    for where, text, _ in files:
        for found in re.finditer(r"fn (\w+)<(\w+): [^>(]*", text):
            body = re.sub(r"\b%s\b" % found.group(2), "T", body_at(text, found.end()))
            calls = {name for name, form in MAKES.items() if re.search(form, body)}
            made.setdefault(where.split("/")[0], {})[found.group(1)] = calls
            bodies[where.split("/")[0], found.group(1)] = body
    for _ in range(3):
        for (crate, name), body in bodies.items():
            for other, calls in made[crate].items():
                if re.search(r"(?<![\w.:])%s(?:::<T>)?\(" % other, body):
                    made[crate][name] = made[crate][name] | calls
    return made


def mentions(kind, where, files):
    """Whether a test file names a type, or takes something from a file of its crate that does."""
    texts = {name: text for name, text, _ in files}
    crate = where.split("/")[0]
    taken = [f"{crate}/{module}" for module in re.findall(r"\b(?:crate|super)::(\w+)::", texts[where])]
    return any(re.search(r"\b%s\b" % kind, texts.get(name, "")) for name in [where, *taken])


def makes(call, text, forms, types, is_named):
    """Whether a test file makes a call. `forms` are the generic functions that make it, `types` the names of its type,
    and `is_named` whether the file names the type."""
    sort, kind, name = call
    if sort == "function":
        return re.search(r"(?<![\w.])%s(?:::<[^;()]*>)?\(" % name, text)
    if sort == "method":
        return re.search(r"\b%s(?:::<[^;()]*>)?::%s\(" % (kind, name), text) or (
            is_named and re.search(r"\.%s\(" % name, text))
    return any(re.search(r"\b%s::<%s\b" % (form, kind), text) for form in forms for kind in types) or (
        name == "read" and re.search(r"\b%s::read\(" % kind, text))


def test_of(crate, call, files, made, sources):
    """The test file that makes a call of a crate, or None. `sources` are the crates that hand out each type."""
    sort, kind, name = call
    types = sources["kmip_enums"] if len(kind) == 1 else {kind}
    for where, text, names in files:
        own = where.split("/")[0]
        givers = [source for source in sources if source == crate or crate in FROM.get((source, name), ())]
        if sort == "function" and not any(name in names.get(source, ()) for source in givers) and not re.search(
                r"\b(?:%s)::(?:\w+::)*%s\b" % ("|".join(givers), name), text):
            continue
        if sort in TRAITS and len(kind) > 1 and kind in sources[crate]:
            handed_out = [source for source, given in sources.items() if kind in given and (
                source == crate or crate in FROM.get((source, kind), ()) or source in FROM.get((crate, kind), ()))]
            if own != crate and not any(kind in names.get(source, ()) for source in handed_out):
                continue
        forms = [helper for helper, calls in made.get(own, {}).items() if name in calls]
        forms += ["read_one", "read_opt", "read_list", "read_root", "from_slice"] if name == "read" else []
        if makes(call, text, forms, types, sort == "method" and mentions(kind, where, files)):
            return where
    return None


def above():
    """Each crate, and itself with the crates that stand on it."""
    rows = [line.split("#")[0].partition(":") for line in open(os.path.join(TOP, "crates.txt"))]
    below = {name.split()[0]: set(uses.split()) for name, colon, uses in rows if colon}

    def stands_on(crate, other):
        return crate == other or any(stands_on(use, other) for use in below.get(crate, ()))
    return {other: {crate for crate in below if stands_on(crate, other)} for other in below}


def callers(form, code):
    """The functions outside of tests that make a call of this form, each with its crate."""
    found = set()
    for crate, text in code:
        for place in re.finditer(form, text):
            found.update((crate, name) for name in re.findall(r"\bfn (\w+)", text[:place.start()])[-1:])
    return found


def methods(code):
    """The types that have a method of a name, by crate and name."""
    found = {}
    for crate, text in code:
        for trait, kind, block, _ in impls("\n" + text):
            for _, name, _, _ in signatures(block) if trait is None else ():
                found.setdefault((crate, name), set()).add(kind)
    return found


def test_through(crate, call, files, code, stand, owners):
    """The test file that makes a function or a method through functions, and the one of them that it names, or None.
    Each function is looked for in its crate and in those above it alone, and a method in files that name its type
    (`owners`, by crate and name)."""
    _, kind, name = call

    def callers_of(of, name):
        above_it = [row for row in code if row[0] in stand[of]]
        return callers(r"(?<![\w.])(?<!fn )%s(?:::<[^;()]*>)?\(" % name, above_it) - {(of, name)}
    if kind:
        # a method, in the files that take its type from its crate, or a function that returns one
        makers = [name for of, text in code if of == crate for _, name, signature, _ in signatures(text)
                  if re.search(r"->.*\b%s\b" % kind, signature, re.S)]
        takes = r"use [^;.]*\b(?:%s)\b[^;.]*;" % "|".join([kind, *makers])
        ahead = callers(r"\.%s\(" % name, [row for row in code if row[0] in stand[crate] and re.search(takes, row[1])])
    else:
        ahead = callers_of(crate, name)
    seen = {(crate, name)}
    while ahead:
        ahead = sorted(ahead - seen)
        seen.update(ahead)
        for of, name in ahead:
            for where, text, _ in files:
                if where.split("/")[0] not in stand[of] or not re.search(r"(?<!fn )\b%s(?:::<[^;()]*>)?\(" % name, text):
                    continue
                kinds = owners.get((of, name), ())
                if not kinds or any(mentions(kind, where, files) for kind in kinds):
                    return f"{where}, through {name}"
        ahead = {above_it for of, name in ahead for above_it in callers_of(of, name)}
    return None


# the crates from which a crate hands a name on: (crate, name) to crates
FROM = {}


def handed_out():
    """The names that each crate hands out, and in FROM whose they are."""
    sources = {}
    for crate in glob.glob(os.path.join(CRATES, "*")):
        if os.path.exists(os.path.join(crate, "src", "lib.rt")):
            short = os.path.basename(crate)
            sources[short] = exported(crate)[0]
            text = without_comments(open(os.path.join(crate, "src", "lib.rt")).read())
            for path, group in re.findall(r"pub use (kmip_\w+)(?:::\w+)*::\{([^}]*)\};", text):
                for name in re.findall(r"\w+", group):
                    FROM.setdefault((short, name), set()).add(path)
    return sources


def main():
    files = test_files()
    made = helpers(files)
    sources = handed_out()
    paths = sorted(glob.glob(os.path.join(CRATES, "*", "src", "**", "*.rt"), recursive=True))
    code = [(path[len(CRATES) + 1:].split(os.sep)[0], without_comments(open(path).read()))
            for path in paths if not is_test_file(path)]
    stand, owners = above(), methods(code)
    missing = 0
    for crate in sorted(sources):
        if crate == "kmip_tests":
            continue
        # the tests of this crate and of those above it, first those that name it
        near = sorted((file for file in files if file[0].split("/")[0] in stand[crate]),
                      key=lambda item: (crate not in item[2], item[0]))
        for call in sorted(public_calls(os.path.join(CRATES, crate))):
            _, kind, name = call
            where = test_of(crate, call, near, made, sources)
            if where is None and call[0] in ("function", "method"):
                where = test_through(crate, call, near, code, stand, owners)
            missing += where is None
            print(f"{crate:22} {(kind + '::' if kind else '') + name:50} {where or 'NO TEST'}")
    print(f"{missing} public calls that take memory have no test")
    sys.exit(1 if missing else 0)


main()
