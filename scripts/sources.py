"""The sources of the crates, as check_pages and check_rules look at them."""
import glob
import os
import re
import textwrap

LIBRARIES = ("no_std_io2_base", "no_std_io2")
# The pages with the numbers, the last of which has the promises.
PROMISES = [path for path in ("README.md", "docs/PROMISES.md") if os.path.exists(path)]


def read(path):
    """The text of a file."""
    with open(path) as file:
        return file.read()


def texts(ending):
    """The files of crates/ with this ending, by their paths."""
    paths = sorted(glob.glob(f"crates/*/*/**/*{ending}", recursive=True))
    return {path: read(path) for path in paths if "/out/" not in path}


def told(results):
    """Prints each thing that is not so, and the last line 'N passed, M failed'; returns the status."""
    results = list(results)
    failed = [what for what, is_so in results if not is_so]
    print(*[f"FAILED: {what}" for what in failed], sep="\n", end="\n" * bool(failed))
    print(f"{len(results) - len(failed)} passed, {len(failed)} failed")
    return 1 if failed or not results else 0


def flat(text):
    """A text without the indentation of its lines."""
    return "\n" + "\n".join(line.strip() for line in text.strip("\n").split("\n")) + "\n"


# ---- contracts

HEAD_ENDS = r"(?:pub |final |fn |\))"


def ends_head(line, head, indent):
    """Whether this line is the last one of a function's head and clauses."""
    if line.endswith(";"):
        whole = "".join([*head, line])
        return whole.count("{") == whole.count("}")
    return line.endswith(" {") and re.match(indent + HEAD_ENDS, line) is not None


def contract(text, name):
    """The head of a function with its clauses. `Type::call` is the first such call after that name's impl or trait."""
    owner, _, call = name.rpartition("::")
    if owner:
        text = text[re.search(rf"^(?:pub )?(?:trait|impl)\b.*\b{owner}\b", text, re.M).start():]
    lines = text[re.search(rf"^ *(?:pub |final )*fn {call}\b", text, re.M).start():].split("\n")
    indent = re.match(" *", lines[0])[0]
    head = []
    for line in lines:
        if line == indent + "{":
            break
        is_last = ends_head(line, head, indent)
        is_comment = "//" in line[:len(indent) + 6]
        if line and not is_comment:
            head.append(re.sub(r"( \{|;)$", "", line) if is_last else line)
        if is_last:
            break
    return textwrap.dedent("\n".join(head)) + "\n"


def law_fields(logic):
    """The fields of each record, also under the names of the words that are one."""
    fields = {}
    for text in logic.values():
        for law, body in re.findall(r"^pub record (\w+)(.*?)(?=^\S|\Z)", text, re.M | re.S):
            fields[law] = set(re.findall(r"^  pub (\w+) :", body, re.M))
        for law, body in re.findall(r"^(\w+)(?: \w+)+ = record \{\n(.*?)^\}", text, re.M | re.S):
            fields[law] = set(re.findall(r"^  (\w+) :", body, re.M))
    for text in logic.values():
        for word, law in re.findall(r"^(\w+)(?: \w+)+ = (\w+)", text, re.M):
            if law in fields:
                fields.setdefault(word, fields[law])
    return fields


def calls_with_lines(text):
    """Each line of a source, with the line after it and the names of the call that it belongs to."""
    owners, names = [], []
    lines = [*text.split("\n"), ""]
    for line, after in zip(lines, lines[1:]):
        if re.match(r"(pub )?(impl|trait)\b", line) or line.startswith("}"):
            owners = re.findall(r"\b[A-Z]\w+\b", line)
        call = re.match(r"\s*(?:pub(?:\(\w+\))? |final )*fn (\w+)", line)
        if call:
            names = [f"{owner}::{call[1]}" for owner in owners] if line.startswith(" ") else [call[1]]
        yield line, after, names


def clauses(code, logic):
    """The clauses of each call, as `Type::call` or `function`, and `clause.field` if a clause is a law."""
    fields, known = law_fields(logic), {}
    for text in code.values():
        for line, after, names in calls_with_lines(text):
            for clause, rest in re.findall(r"(?:ensures|requires)\*? (\w+) \{(.*)", line):
                if rest.count("{") >= rest.count("}"):
                    rest += after
                parts = [f"{clause}.{field}" for law in re.findall(r"\w+", rest) for field in fields.get(law, ())]
                for name in names:
                    known.setdefault(name, set()).update([clause, *parts])
    return known


# ---- words and lemmas

def words(logic):
    """Each public word that specs/ defines, with its module and the words above it."""
    pattern = r"((?:^-- .*\n)*)^(?:abbrev |unfoldable |opaque )*pub (?:record |data )?(?!mod\b|use\b)(\S+)"
    for path, text in logic.items():
        if "/specs/" in path:
            for above, word in re.findall(pattern, text, re.M):
                yield word, path, " ".join(above.replace("-- ", "").split())


def above(text, name):
    """The comment above a public lemma, as one line, or None if the module has no such lemma."""
    marks = r"(?:abbrev |unfoldable |opaque )*"
    found = re.search(rf"((?:^ *-- .*\n)*)^ *{marks}pub {re.escape(name)}(?=\s)", text, re.M)
    return " ".join(found[1].replace("-- ", " ").split()) if found else None


def blocks(text):
    """What the `module _ .. where` blocks of a module have."""
    return [textwrap.dedent(block) for block in
            re.findall(r"^module _ (?:.*\n +)*?.*where\n((?:  .*\n|\n)*)", text, re.M)]


def defined(text):
    """The names that a module of specs/ or proofs/ defines: all at its top level, and the public ones of its blocks."""
    marks = r"^(?:abbrev |unfoldable |opaque )*"
    typed = r"(?:record |data |ruleset )?(?!mod\b|use\b|module\b|--)([^\s=]+)(?=.* : |.*:$| =.*\)$)"
    names = set(re.findall(rf"{marks}(?:pub )?{typed}", text, re.M))
    inside = blocks(text)
    while inside:
        names.update(name for block in inside for name in re.findall(rf"{marks}pub {typed}", block, re.M))
        inside = [inner for block in inside for inner in blocks(block)]
    return names


def bodies(text, what):
    """The names of the types of this kind, `data` or `record`, each with what stands below its head."""
    marks = r"(?:abbrev |unfoldable |opaque )*(?:pub )?"
    for _, name, body in re.findall(rf"^( *){marks}{what} (\w+)(.*?\n)(?=\1\S|\Z)", text, re.M | re.S):
        yield name, body.partition(" where\n")[2]


def constructors(text):
    """The constructors of a module, each with its type."""
    pattern = re.compile(r"^ +([^\s-]\S*) : ", re.M)
    return [(name, kind) for kind, body in bodies(text, "data") for name in pattern.findall(body)]


def members(text):
    """The members of a module's records, each with its record."""
    pattern = re.compile(r"^ +pub (\S+) : ", re.M)
    return [(name, law) for law, body in bodies(text, "record") for name in pattern.findall(body)]


def twice(pairs):
    """The names that stand in two places, each with these; pairs are a name and a place."""
    places = {}
    for name, path in pairs:
        places.setdefault(name, set()).add(path)
    return {name: sorted(paths) for name, paths in sorted(places.items()) if len(paths) > 1}


def clashes(files):
    """The names that mean two things in these modules: two words or constructors, or one of them and a member."""
    places = [(name, path) for path, text in files.items() for name in defined(text)]
    places += [(name, f"{path}: {kind}") for path, text in files.items() for name, kind in constructors(text)]
    words = {name for name, _ in places}
    fields = [(name, f"{path}: {law}") for path, text in files.items() for name, law in members(text)]
    return twice(places + [(name, place) for name, place in fields if name in words])


def defined_twice(logic):
    """The names with two meanings: in the specs/ and proofs/ of the libraries together, and in the specs/ of another
    crate together with those of the libraries."""
    modules = re.compile(rf"crates/(?:{'|'.join(LIBRARIES)})/(?:specs|proofs)/(?:inner/)?\w+\.antt")
    groups = {crate: {} for crate in ["", *(path.split("/")[1] for path in logic)]}
    for path, text in logic.items():
        crate = path.split("/")[1]
        if modules.fullmatch(path):
            groups[""][path] = text
        for name in groups if crate in LIBRARIES else [crate]:
            if name and "/specs/" in path:
                groups[name][path] = text
    found = {}
    for files in groups.values():
        for name, places in clashes(files).items():
            found.setdefault(name, set()).update(places)
    return {name: sorted(places) for name, places in sorted(found.items())}


# ---- lines

def too_long(text, most):
    """The numbers of the lines that have more columns than this."""
    return [number for number, line in enumerate(text.split("\n"), 1) if len(line) > most]
