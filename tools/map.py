#!/usr/bin/env python3
"""Whether docs/MAP.md is what crates.txt and the first lines of the crates say.

    tools/map.py            exits with 1 where the page is stale
    tools/map.py --write    writes it

The page has a table for each chapter of crates.txt. What a crate is stands in the first lines of its src/lib.rt or src/main.rt, and
what kind of crate it is in its name.
"""

import re
import sys
from pathlib import Path

ROOT = Path(__file__).resolve().parent.parent
PAGE = ROOT / "docs" / "MAP.md"
OLD_NAMES = ROOT / "tools" / "old_names.txt"

HEAD = """# The crates

This page is written by `tools/map.py` from `crates.txt` and the first lines of each crate; `.ci/run` refuses it where it is stale.

The name of a crate says what it holds, and who may touch it:

| Name | What it holds | May be touched |
|---|---|---|
| `X_lang`, `X_lang_CHAPTER`, and `sem_words`, `asm_types`, which hold code too | definitions, to be believed (`docs/BELIEVE.md`) | only with the standard open |
| `X_laws_TOPIC` | theorems and what they need: nothing to believe, no code that runs | by whoever proves |
| `X_translation` | a translation as a plain function, which the translator equals: nothing to believe | with the translator |
| `X_PASS`, `X_PASS_PART` | code with contracts; the bare name is what others call | freely, the contracts hold it |
| `cmd_COMMAND` | from a file's bytes to a command's answer | freely |
| `script_*`, `session_*` | scripts and what is seen of a session, as code | freely |
| `X_worked`, `vectors_*` | worked examples; tests | freely |

In a crate `src/` has the code with its contracts, `specs/` the definitions that the contracts cite, `proofs/` what the checker was told, `must-fail/` edits that it must refuse. The first line of each file of `specs/` and `proofs/` says what it is: `head -qn1 crates/NAME/specs/*`.

Both translators have the same parts: `X_lang` (what may be written, how it is called), `X_translation` (the plain function), `X_laws_acceptance` (the result is accepted, and has the parts that are asked for), `X_laws_preservation` (instruction by instruction), `X_laws_simulation` (functions, calls and whole sessions), `X_tables`, and the code.

Beside the crates:

| Folder | What it is |
|---|---|
| `host/` | ES modules that load what Bridge writes: `asm.mjs` and `signatures.mjs` for texts of `wasm2js`, `wasm.mjs` for modules of `asm2wasm`, `pack.mjs` for one file of it all. Tested, not proved |
| `examples/` | commands, C programs (`c/`) and two programs on a page (`page/`), as `docs/USAGE.md` uses them |
| `tools/` | what `.ci/run` runs after the gate, `kept.sh` of the first call, and `wrong_bodies` |
| `bench/` | measurements |

"Stands on" leaves out what another crate of the row stands on.
"""


def chapters():
    """The chapters of crates.txt, each with its crates in order, and what each crate uses."""
    parts, uses = [], {}
    for line in (ROOT / "crates.txt").read_text().splitlines():
        if line.startswith("# ") and ":" not in line:
            parts.append((line[2:], []))
        elif ":" in line and not line.startswith("#"):
            name, _, rest = line.partition(":")
            uses[name.strip()] = rest.split()
            parts[-1][1].append(name.strip())
    return parts, uses


def kind_of(name):
    for pattern, kind in (
        (r"sem_words|asm_types|session_lang", "definitions and code"),
        (r"\w+_lang(_\w+)?", "definitions"),
        (r"\w+_laws(_\w+)?", "laws"),
        (r"\w+_translation", "plain function"),
        (r"\w+_worked", "examples"),
        (r"vectors_\w+", "tests"),
    ):
        if re.fullmatch(pattern, name):
            return kind
    return "code"


def said_of(name):
    """What the first lines of the crate's root say that it is."""
    source = ROOT / "crates" / name / "src"
    root = source / "lib.rt" if (source / "lib.rt").is_file() else source / "main.rt"
    lines = []
    for line in root.read_text(encoding="utf8").splitlines():
        if not line.startswith("//!"):
            break
        lines.append(line[3:].strip())
    text = " ".join(filter(None, lines))
    if not text:
        sys.exit(f"{root}: the first line doesn't say what the crate is")
    return text.replace("|", "\\|")


def below(name, uses, known):
    """All crates that a crate stands on."""
    if name not in known:
        direct = [other for other in uses.get(name, ()) if other in uses]
        known[name] = set(direct).union(*(below(other, uses, known) for other in direct)) if direct else set()
    return known[name]


def stands_on(name, uses, known):
    direct = [other for other in uses[name] if other in uses]
    implied = set().union(*(below(other, uses, known) for other in direct)) if direct else set()
    shown = [f"`{other}`" for other in direct if other not in implied]
    kit = [f"`{other}`" for other in uses[name] if other not in uses]
    return ", ".join(shown + kit) or "nothing"


def page():
    parts, uses = chapters()
    known = {}
    text = [HEAD]
    for title, names in parts:
        if not names:
            continue
        text.append(f"## {title}\n\n| Crate | Kind | What it is | Stands on |\n|---|---|---|---|")
        text += [f"| `{name}` | {kind_of(name)} | {said_of(name)} | {stands_on(name, uses, known)} |" for name in names]
        text.append("")
    text.append(old_names())
    return "\n".join(text).rstrip() + "\n"


def old_names():
    """The names that crates had until November 2026, which plans and commits of before use."""
    rows = [line.split() for line in OLD_NAMES.read_text().splitlines() if line and not line.startswith("#")]
    return "## Names of before\n\n| Until November 2026 | Now |\n|---|---|\n" + "\n".join(f"| `{old}` | {new} |" for old, new in ((row[0], " and ".join(f"`{n}`" for n in row[1:]) or "gone") for row in rows))


def main():
    if sys.argv[1:] == ["--write"]:
        PAGE.write_text(page(), encoding="utf8")
        return 0
    if sys.argv[1:]:
        sys.exit(__doc__)
    if PAGE.read_text(encoding="utf8") != page():
        print("docs/MAP.md is stale: tools/map.py --write", file=sys.stderr)
        return 1
    return 0


sys.exit(main())
