#!/usr/bin/env python3
"""Which files the contracts of the calls that README claims something of rest on, against the list in docs/BELIEVE.md.

    tools/believed.py            exits with 1 where the list lacks a file or has one too many, and names them
    tools/believed.py --write    takes stale lines out of docs/BELIEVE.md and puts missing ones in
    tools/believed.py --names    prints each file with the names that count in it

A definition counts where its name stands in such a contract, or in a definition that counts. It is refused where it stands
neither in a crate of definitions (X_lang, X_lang_CHAPTER) nor in one of the few that OTHERS names. Names are matched as words, so the
list may hold a definition too many, where a variable has the name of one. Enums, structs and traits that code declares count
with the file that declares them, and so do the types in them; the standard library of Rattle is left out.
"""

import argparse
import re
import sys
from collections import defaultdict
from functools import lru_cache
from pathlib import Path

ROOT = Path(__file__).resolve().parent.parent
CRATES = ROOT / "crates"
TABLE = ROOT / "docs" / "BELIEVE.md"

# The calls, each with its file and the clauses that README doesn't claim: they say that the code equals a plain function.
CALLS = [
    ("bridge_cmd/src/top.rt", "bridge", ()),
    ("bridge_cmd/src/composed.rt", "round_trips", ()),
    ("asm2wasm/src/validated.rt", "translate", ("exact",)),
    ("wasm2js/src/translating.rt", "translate", ("exact",)),
    ("asm_run/src/session.rt", "run", ()),
    ("wasm_run/src/instance.rt", "run", ("typed",)),
]

# Crates without `_lang` in their names that hold definitions, and why.
OTHERS = {
    "sem_words": "words and JavaScript values, with the code that equals them",
    "asm_types": "the types of asm.js, with the code that equals them",
    "bridge_io": "the traits Files and Sink",
    "asm_tree": "what a tree of the code says",
    "wasm_tree": "what a tree of the code says",
    "heap_views": "what a heap of the code holds",
    "session_replies": "what is seen of a session, as the code holds it",
}
IS_LANG = re.compile(r"\w+_lang(?:_\w+)?")

MODIFIERS = r"(?:(?:pub|abbrev|unfoldable|opaque|lemma) )*"
DEFINITION = re.compile(rf"{MODIFIERS}([^\s:({{]+)(?: \{{[^}}]*\}})* :")
BLOCK = re.compile(rf"{MODIFIERS}(module|mutual|data|record)\b(?: ([^\s:({{]+))?")
IMPORT = re.compile(r"^\s*(?:pub )?(?:ghost )?use Rattle\.([\w.]+?)(?:\.\{([^}]*)\})?(?: as (\w+))?;?\s*$")
RUST_IMPORT = re.compile(r"^\s*(?:pub )?use ([\w:]+?)(?:::\{([^}]*)\})?;\s*$")
ROW = re.compile(r"^\| `(crates/[^`]+)` \|")
UNKNOWN = "?"


class Item:
    """A definition, or definitions that name each other: its text, and the names that it gives."""

    def __init__(self, text, names):
        self.text = text
        self.names = set(names)


class File:
    """A file of definitions: what each imported name means, and its items by name."""

    def __init__(self, path):
        lines = path.read_text(encoding="utf8").splitlines()
        self.path = path
        self.imports, self.modules = imports_of(lines)
        self.items = {}
        for item in items_of(lines):
            for name in item.names:
                self.items.setdefault(name, item)


@lru_cache(maxsize=None)
def load(path):
    return File(path)


# ---- the parts of a file


def imports_of(lines):
    """The names that the lines import, each as (module, name), and the modules that they import by a name."""
    names, modules = {}, {}
    for line in lines:
        found = IMPORT.match(line)
        if not found:
            continue
        module, listed, alias = found.groups()
        if listed is None:
            modules[alias or module.split(".")[-1]] = module
            names[alias or module.split(".")[-1]] = tuple(module.rsplit(".", 1))
            continue
        for part in filter(None, map(str.strip, listed.split(","))):
            name, _, other = part.partition(" as ")
            names[other or name] = (module, name)
    return names, modules


def is_code(line):
    text = line.strip()
    return bool(text) and not text.startswith(("--", "use ", "pub use ", "pub mod ", "mod ", "infix"))


def groups_of(lines):
    """Lines that begin at the margin, each with the indented ones below it."""
    group = []
    for line in filter(is_code, lines):
        if not line[0].isspace() and group:
            yield group
            group = []
        group.append(line)
    if group:
        yield group


def dedented(lines):
    return [line[2:] for line in lines]


def members_of(group):
    """The constructors of a `data`, or the fields of a `record`."""
    for line in dedented(group[1:]):
        found = re.match(r"(?:pub )?((?:[^\s:({]+ )+):", line)
        if found:
            yield from found.group(1).split()


def names_of(group):
    """The names that a group gives; none where it goes on with what stands before it."""
    block = BLOCK.match(group[0])
    if block and block.group(1) == "mutual":
        return [name for part in groups_of(dedented(group[1:])) for name in names_of(part)]
    if block and block.group(1) in ("data", "record"):
        return [block.group(2), *members_of(group)]
    signature = DEFINITION.match(group[0])
    return [signature.group(1)] if signature else []


def items_of(lines):
    items = []
    for group in groups_of(lines):
        block = BLOCK.match(group[0])
        if block and block.group(1) == "module":
            items += [Item(group[0] + "\n" + item.text, item.names) for item in items_of(dedented(group[1:]))]
            continue
        names = names_of(group)
        if names or not items:
            items.append(Item("\n".join(group), names))
        else:
            items[-1].text += "\n" + "\n".join(group)
    return items


# ---- what a text cites


def words_of(text):
    code = re.sub(r'"(?:[^"\\]|\\.)*"', '""', re.sub(r"(^|\s)(--|//).*", "", text, flags=re.M))
    return set(re.split(r"[\s(){},;\[\]λ]+", code))


def is_written(name, words):
    """Whether the name stands among the words; that of an operator, where each of its signs does."""
    if "◌" in name:
        return all(sign in words for sign in name.split("◌") if sign)
    return name in words


def cited_by(text, names, modules, own):
    """What the text cites, as (module, name), and (None, name) of the same file."""
    words = words_of(text)
    first = {word.split(".")[0] for word in words} | words
    for word in words:
        parts = word.split(".")
        if len(parts) > 1 and parts[0] in modules:
            yield modules[parts[0]], parts[1]
    for name, target in names.items():
        if is_written(name, first):
            yield target
    for name in own:
        if is_written(name, first):
            yield None, name


def source_of(crate, parts):
    """The file of code that declares what the parts name."""
    source = CRATES / crate / "src"
    fronts = ["/".join(parts[:count]) for count in range(len(parts), 0, -1)]
    candidates = [source / name for front in fronts for name in (f"{front}.rt", f"{front}/mod.rt")]
    return next(filter(Path.is_file, [*candidates, source / "lib.rt"]), None)


def resolve(module, name):
    """The file of a module, and the name in it; None for what isn't of this repository."""
    crate, *parts = module.split(".")
    if not (CRATES / crate).is_dir() or parts[:1] != ["specs"]:
        return None
    if parts[1:2] and parts[1] in ("declared", "contracts"):
        path = source_of(crate, parts[2:])
        return (path, None) if path else None
    path = CRATES / crate / "specs" / ("/".join(parts[1:]) + ".antt" if parts[1:] else "Lib.antt")
    return (path, name) if path.is_file() else None


def rust_imports(path):
    """The names that a file of code imports, each with its crate."""
    for line in path.read_text(encoding="utf8").splitlines():
        found = RUST_IMPORT.match(line)
        if found:
            module, listed = found.groups()
            crate = module.split("::")[0]
            crate = path.relative_to(CRATES).parts[0] if crate == "crate" else crate
            for name in listed.split(",") if listed else [module.split("::")[-1]]:
                yield name.strip(), crate


def declaring(name, crate):
    """The file of code that declares a type or a trait of a crate, which may pass it on from another crate."""
    source = CRATES / crate / "src"
    for path in sorted(source.rglob("*.rt")):
        if re.search(rf"^pub (?:trait|struct|enum) {name}\b", path.read_text(encoding="utf8"), re.M):
            return path
    if not (source / "lib.rt").is_file():
        return None
    passed_on = dict(rust_imports(source / "lib.rt")).get(name, crate)
    return declaring(name, passed_on) if passed_on != crate else None


def rust_types(path):
    """The files that declare the types and traits that a file of code imports, by their names."""
    files = {name: declaring(name, crate) for name, crate in rust_imports(path)}
    return {name: file for name, file in files.items() if file}


def types_in(path):
    """The types of the public fields of what a file of code declares; of others a clause sees a model."""
    text = path.read_text(encoding="utf8")
    declared = re.findall(r"^pub enum [^;]*?^}", text, re.M)
    for struct in re.findall(r"^pub struct [^;]*?^}", text, re.M):
        declared += re.findall(r"^    pub .*", struct, re.M)
    return {word for part in declared for word in re.findall(r"(?:: |[(<])(\w+)", part)}


def closure(roots):
    """The names that count, by file. Of a file of code there are none."""
    counted, open_roots = defaultdict(set), list(roots)
    while open_roots:
        path, name = open_roots.pop()
        if name is None:
            if path not in counted:
                types = types_in(path)
                open_roots.extend((file, None) for kind, file in rust_types(path).items() if kind in types)
            counted[path]
            continue
        file = load(path)
        item = file.items.get(name)
        if item is None:
            passed_on = file.imports.get(name) and resolve(*file.imports[name])
            open_roots.extend([passed_on] if passed_on else [])
            continue
        if name in counted[path]:
            continue
        counted[path] |= item.names
        for module, other in cited_by(item.text, file.imports, file.modules, file.items):
            target = (path, other) if module is None else resolve(module, other)
            if target and target[1] not in counted.get(target[0], ()):
                open_roots.append(target)
    return counted


# ---- the contract of the call


def definition_in(path, pattern, end):
    """The text of a file of code from the line that the pattern finds to the line that ends it."""
    text = path.read_text(encoding="utf8")
    begin = re.search(pattern, text, re.M).start()
    return text[begin : text.index(end, begin)]


def heading_of(path, call):
    """The heading of a call with its clauses."""
    text = path.read_text(encoding="utf8")
    begin = re.search(rf"^( *)pub fn {call}\b", text, re.M)
    return text[begin.start() : text.index(f"\n{begin.group(1)}{{\n", begin.start())]


def without_clauses(heading, names):
    """The heading without the clauses of these names."""
    for name in names:
        heading = re.sub(rf"^ *ensures {name} \{{.*\n?", "", heading, flags=re.M)
    return heading


def citations_of(text, path):
    """The definitions that a text of a file of code cites."""
    names, modules = imports_of(path.read_text(encoding="utf8").splitlines())
    return [resolve(*target) for target in cited_by(text, names, modules, ()) if target[0]]


def roots_of_contract(path, call, left_out):
    """What the contract of the call cites, and the traits and enums in its heading; of a struct its contract cites a view."""
    contract = without_clauses(heading_of(path, call), left_out)
    roots = citations_of(contract, path)
    for name, source in rust_types(path).items():
        if not re.search(rf"\b{name}\b", contract) or not re.search(rf"^pub (?:trait|enum) {name}\b", source.read_text(encoding="utf8"), re.M):
            continue
        roots.append((source, None))
        trait = re.search(rf"^pub trait {name}\b", source.read_text(encoding="utf8"), re.M)
        if trait:
            roots += citations_of(definition_in(source, rf"^pub trait {name}\b", "\n}\n"), source)
    return [root for root in roots if root]


# ---- the list


def crate_of(name):
    return name.split("/")[1]


def title_of(path):
    """What the first line of a file says it is."""
    first = path.read_text(encoding="utf8").splitlines()[0]
    return re.sub(r"^(--|//!?)\s*", "", first).rstrip(".")


def rewritten(lines, missing, stale):
    """The lines of the list without the stale rows, and with a row for each missing file behind the last one of its crate."""
    lines = [line for line in lines if not (ROW.match(line) and ROW.match(line).group(1) in stale)]
    for name in missing:
        crate = name.split("/")[1]
        rows = [at for at, line in enumerate(lines) if ROW.match(line)]
        same = [at for at in rows if lines[at].startswith(f"| `crates/{crate}/")]
        at = (same or rows or [len(lines) - 1])[-1]
        lines.insert(at + 1, f"| `{name}` | {title_of(ROOT / name)} | {UNKNOWN} |")
    return lines


def main():
    parser = argparse.ArgumentParser(description=__doc__, formatter_class=argparse.RawDescriptionHelpFormatter)
    parser.add_argument("--write", action="store_true", help="bring docs/BELIEVE.md up to date")
    parser.add_argument("--names", action="store_true", help="print each file with the names that count in it")
    options = parser.parse_args()

    counted = closure([root for file, call, left_out in CALLS for root in roots_of_contract(CRATES / file, call, left_out)])
    wanted = {str(path.relative_to(ROOT)): names for path, names in counted.items()}
    if options.names:
        for name in sorted(wanted):
            print(name, *sorted(wanted[name]))
        return 0

    lines = TABLE.read_text(encoding="utf8").splitlines()
    listed = [row.group(1) for row in map(ROW.match, lines) if row]
    missing, stale = sorted(set(wanted) - set(listed)), sorted(set(listed) - set(wanted))
    if options.write:
        TABLE.write_text("\n".join(rewritten(lines, missing, stale)) + "\n", encoding="utf8")
        return 0
    twice = sorted({name for name in listed if listed.count(name) > 1})
    unsaid = [ROW.match(line).group(1) for line in lines if ROW.match(line) and line.endswith(f"| {UNKNOWN} |")]
    strange = sorted(name for name in wanted if not IS_LANG.fullmatch(crate_of(name)) and crate_of(name) not in OTHERS)
    for name in strange:
        print(f"{name}: to be believed, and in no crate of definitions", file=sys.stderr)
    for what, names in (("missing in", missing), ("stale in", stale), ("twice in", twice), ("without its source in", unsaid)):
        for name in names:
            print(f"{name}: {what} docs/BELIEVE.md", file=sys.stderr)
    return 1 if missing or stale or twice or unsaid or strange else 0


if __name__ == "__main__":
    sys.exit(main())
