#!/usr/bin/env python3
"""Whether the pages that people write name what is there.

    tools/trails.py            exits with 1 where one doesn't

docs/HOWTO.md: each path in back quotes stands in crates/: a crate, a folder of it, or a file without its ending, as in
`wasm_lang/specs/{Opcodes,Grammar}`. Where a page says "The trail of `word`, `word`", each file of the crates in which one of these words
stands is one of that page's paths, or below one. docs/OUTPUT.md: each name that a translated text can have is there.
"""

import itertools
import re
import sys
from pathlib import Path

ROOT = Path(__file__).resolve().parent.parent
CRATES = ROOT / "crates"
HOWTO = ROOT / "docs" / "HOWTO.md"
OUTPUT = ROOT / "docs" / "OUTPUT.md"
NAMES = CRATES / "wasm2js_translation" / "specs" / "Names.antt"
ENDINGS = ("", ".antt", ".rt")
# what stands in back quotes, and may be the name of a crate or a path in one
PATH = re.compile(r"`([a-z0-9_{},]+(?:/[\w+{},]+)*)`")
# the other folders that pages name
ELSEWHERE = ("bench", "crates", "docs", "examples", "host", "proofs", "specs", "src", "tools")


def expanded(path):
    """The paths that braces stand for."""
    parts = [it.split(",") for it in re.split(r"[{}]", path)]
    # (what stands between braces is at the odd places)
    choices = [it if at % 2 else [",".join(it)] for at, it in enumerate(parts)]
    return ["".join(it) for it in itertools.product(*choices)]


def is_there(path):
    return any((CRATES / f"{path}{ending}").exists() for ending in ENDINGS)


def is_below(file, paths):
    """Whether a file of the crates is one of these, or in one of their folders."""
    bare = str(Path(file).with_suffix(""))
    return any(bare == path or bare.startswith(f"{path}/") for path in paths)


def sources():
    for file in sorted(CRATES.rglob("*")):
        if file.suffix in (".rt", ".antt") and "out" not in file.relative_to(CRATES).parts:
            yield str(file.relative_to(CRATES)), file.read_text()


def paths_of(page):
    """The paths of crates/ that a page names; a word without a slash is one where there is such a crate."""
    for path in PATH.findall(page):
        if path.split("/")[0] not in ELSEWHERE:
            yield from (it for it in expanded(path) if "/" in it or (CRATES / it / "src").is_dir())


def lacking_in_howto():
    texts = list(sources())
    for page in re.split(r"^## ", HOWTO.read_text(), flags=re.M)[1:]:
        title, paths = page.split("\n", 1)[0], list(paths_of(page))
        yield from (f"docs/HOWTO.md, {title}: there is no crates/{it}" for it in paths if not is_there(it))
        trail = re.search(r"^The trail of ((?:`\w+`(?:, )?)+)", page, re.M)
        if trail:
            words = re.compile(r"\b(?:%s)\b" % "|".join(re.findall(r"`(\w+)`", trail[1])))
            for file, text in texts:
                if words.search(text) and not is_below(file, paths):
                    yield f"docs/HOWTO.md, {title}: the trail goes through crates/{file}"


def lacking_in_output():
    text, names = OUTPUT.read_text(), NAMES.read_text()
    words = re.findall(r'^word \w+ = codes "(.*)"$', names, re.M)
    letters = [chr(int(it)) for it in re.findall(r"^letter \w+ = (\d+)", names, re.M)]
    if len(words) < 20 or len(letters) < 10:
        yield f"tools/trails.py: few names stand in {NAMES.relative_to(ROOT)}"
    yield from (f"docs/OUTPUT.md: {it} isn't there" for it in words if f"`{it}`" not in text)
    yield from (f"docs/OUTPUT.md: {it}0 isn't there" for it in letters if f"`{it}0`" not in text)


def main():
    lacking = [*lacking_in_howto(), *lacking_in_output()]
    for it in lacking:
        print(f"trails: {it}")
    if not lacking:
        print("trails: what docs/HOWTO.md and docs/OUTPUT.md name is there")
    return 1 if lacking else 0


if __name__ == "__main__":
    sys.exit(main())
