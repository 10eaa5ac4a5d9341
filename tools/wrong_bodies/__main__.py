#!/usr/bin/env python3
"""python3 tools/wrong_bodies [NAME ..] [--list] [--applies] [--check COMMAND]

Tries wrong bodies of the program, each of which gives another meaning to what was asked for, on a copy of the repository: each must be refused,
and by the clause that its file names. --list tells them and tries none; --applies says only whether each can still be put into the sources.
They are tried by one `rt ci` of their crates, as must-fail edits of the copy: what earlier runs on this machine proved of the same files, and the
wrong bodies that they tried, are taken from what the kit keeps. With --check each is tried by itself, by a command that runs in its crate's folder
of the copy and prints what `rt check` prints; in it {crate} stands for the crate and {function} for the function that is to refuse the body, as in
'rt check {crate} --only {function}'. The status is 1 where one isn't refused, is refused by another clause, or can't be tried.

NAME.edit in this folder is one wrong body, with lines that begin with

    what:     what it does, in plain words
    crate:    the crate that it changes
    refused:  a function of it, and the clause that refuses the body; no clause, where the function has one without a name. Where there are several
              such lines, each clause refuses it, and the prover is to name one of them
    test:     in place of `refused:`, a crate and a test of it, which must fail: no clause refuses the body
    file: old: new:     the edit, in the form of crates/*/must-fail
    edit:     in place of these and of `crate:`, an edit of crates/*/must-fail
"""
import argparse
import pathlib
import re
import shlex
import shutil
import subprocess
import sys
import tempfile

HERE = pathlib.Path(__file__).resolve().parent
ROOT = HERE.parents[1]
OURS = ("what", "crate", "refused", "test", "edit")
EDITS = ("file", "old", "new")
FUNCTION = re.compile(r"^\s*(?:pub(?:\(\w+\))? )?(?:const )?(?:unsafe )?fn (\w+)", re.M)
NOTE = re.compile(r"note: (\S+?):(\d+):\d+: it is not proved that what the function ensures holds when it returns \(`(returns[^`]*)")
# A written answer to such a goal that doesn't answer it any more: what the wrong body does is not what it says.
ANSWER = re.compile(
    r"proofs/(?:[^\s:]*/)?([^/\s:]+)/Answers\.antt:\d+:\d+: error: `(?:(\w+)-)?(returns[^`]*)`: (?:`search`: no proof|as printed, the two types|expected type)"
)


class Unusable(Exception):
    """Why a wrong body can't be tried."""


class WrongBody:
    def __init__(self, path):
        self.name = path.stem
        said = [self.line_of(it) for it in path.read_text().splitlines() if it.strip()]
        of = lambda key: [text for it, text in said if it == key]
        self.what = self.one("what", of("what"))
        self.edit = [it for it in said if it[0] in EDITS]
        if of("edit"):
            other = ROOT / self.one("edit", of("edit"))
            self.crate = other.parts[-3]
            if not other.is_file():
                raise Unusable(f"{self.name}: there is no {other}")
            self.edit += [self.line_of(it) for it in other.read_text().splitlines() if it.startswith(EDITS)]
        else:
            self.crate = self.one("crate", of("crate"))
        self.clauses = [tuple(it.split()) for it in of("refused")]
        self.test = tuple(of("test")[0].split()) if of("test") else None
        if bool(self.clauses) == bool(self.test) or not all(len(it) in (1, 2) for it in self.clauses):
            raise Unusable(f"{self.name}: it names no function that refuses it, and no test")

    def line_of(self, line):
        key, colon, text = line.partition(":")
        if not colon or key not in OURS + EDITS:
            raise Unusable(f"{self.name}: a line is none of {', '.join(OURS + EDITS)}: {line}")
        # (a text of an edit begins after one blank, and may begin with others)
        return key, text.removeprefix(" ") if key in EDITS else text.strip()

    def one(self, key, texts):
        if len(texts) != 1:
            raise Unusable(f"{self.name}: it has {len(texts)} lines `{key}:`")
        return texts[0]

    def refused_by(self):
        if self.test:
            return f"the test {self.test[1]} of {self.test[0]}"
        return " or ".join(f"{it[0]}, {it[1]}" if len(it) == 2 else it[0] for it in self.clauses)

    def function(self):
        """The function that is to refuse it, with its module."""
        name = self.clauses[0][0]
        source = ROOT / "crates" / self.crate / "src"
        own = [source.parent / text for key, text in self.edit if key == "file"]
        for path in [*own, *sorted(source.rglob("*.rt"))]:
            if name in FUNCTION.findall(path.read_text()):
                modules = path.relative_to(source).with_suffix("").parts
                return "::".join([*(it for it in modules if it not in ("lib", "mod")), name])
        raise Unusable(f"{self.name}: there is no function {name} in {self.crate}")

    def changed(self):
        """The files that it changes, as they are with it."""
        texts, at, old = {}, None, None
        for key, text in self.edit:
            if key == "file":
                at = ROOT / "crates" / self.crate / text
                if not at.is_file():
                    raise Unusable(f"{self.name}: there is no {at}")
            elif key == "old":
                old = text
            else:
                had = texts.get(at) or at.read_text()
                if had.count(old) != 1:
                    raise Unusable(f"{self.name}: a text stands {had.count(old)} times in {at.relative_to(ROOT)}: {old}")
                texts[at] = had.replace(old, text)
        if not texts:
            raise Unusable(f"{self.name}: it changes nothing")
        return texts


def copy_of_sources(folder):
    """What the prover reads: no edit, and nothing that it made."""
    shutil.copytree(ROOT / "crates", folder / "crates", ignore=shutil.ignore_patterns("out", "must-fail"))
    for name in ("crates.txt", "HANDLES"):
        shutil.copy(ROOT / name, folder / name)
    return folder


def clause_of(body, said):
    """The function and the clause that a line of rt names, or None where it names none."""
    note, answer = NOTE.search(said), ANSWER.search(said)
    if answer:
        folder, among, goal = answer.groups()
        # (functions that call each other share a file, whose folder's name is that of no function)
        function = [among if folder.startswith("+") else folder]
    elif note:
        path, line, goal = note.groups()
        lines = (ROOT / "crates" / body.crate / path).read_text().split("\n")
        end = int(line)
        # (of a function with attributes the note names their line)
        while lines[end - 1].lstrip().startswith("#[") and end < len(lines):
            end += 1
        function = FUNCTION.findall("\n".join(lines[:end]))[-1:]
    else:
        return None
    clause = re.search(r"-clause-(\w+?)(?:-\d+)?$", goal)
    return (*function, clause[1]) if clause else (*function,)


def verdict(body, said):
    """Whether what rt said of a wrong body is the refusal that it is to be, and what to print of it."""
    found = clause_of(body, said)
    if found in body.clauses:
        return True, f"refused by {', '.join(found)}"
    by = f"refused by {', '.join(found)}, and not" if found else f"{said}; it is to be refused"
    return False, f"{by} by {body.refused_by()}"


def try_by_proof(folder, bodies):
    """The verdicts on wrong bodies that clauses are to refuse."""
    for body in bodies:
        edits = folder / "crates" / body.crate / "must-fail"
        edits.mkdir(exist_ok=True)
        (edits / f"{body.name}.edit").write_text("".join(f"{key}: {text}\n" for key, text in body.edit))
    ran = subprocess.run(
        ["rt", "ci", *sorted({it.crate for it in bodies})], cwd=folder, stdin=subprocess.DEVNULL, stdout=subprocess.PIPE, stderr=subprocess.STDOUT, text=True
    )
    for body in bodies:
        said = re.search(rf"^rt: must-fail {body.crate}/{body.name}\.edit: (.*)$", ran.stdout, re.M)
        yield body, *(verdict(body, said[1]) if said else (False, f"not tried: {ran.stdout.strip()[-600:]}"))


def try_by_check(folder, body, command):
    """The verdict on a wrong body that clauses are to refuse, by a command that checks their function."""
    here = folder / "crates" / body.crate
    kept = {it: (folder / it.relative_to(ROOT)).read_text() for it in body.changed()}
    words = [it.replace("{crate}", body.crate).replace("{function}", body.function()) for it in shlex.split(command)]
    for path, text in body.changed().items():
        (folder / path.relative_to(ROOT)).write_text(text)
    ran = subprocess.run(words, cwd=here, stdin=subprocess.DEVNULL, stdout=subprocess.PIPE, stderr=subprocess.STDOUT, text=True)
    for path, text in kept.items():
        (folder / path.relative_to(ROOT)).write_text(text)
    if ran.returncode == 0:
        return False, "it is proved"
    told = [it for it in ran.stdout.split("\n") if NOTE.search(it) or ANSWER.search(it)]
    verdicts = [verdict(body, it) for it in told]
    refused = [it for it in verdicts if it[0]] or verdicts
    return refused[0] if refused else (False, f"not tried: {ran.stdout.strip()[-600:]}")


def only_modules(source, wanted):
    """Leaves of the tests' modules the wanted one and those that it uses."""
    kept, new = set(), {wanted}
    while new:
        kept |= new
        new = {used for it in new for used in re.findall(r"\bcrate::(\w+)", (source / f"{it}.rt").read_text())} - kept
    root = source / "lib.rt"
    root.write_text(re.sub(r"#\[cfg\(test\)\]\nmod (\w+);\n", lambda it: it[0] if it[1] in kept else "", root.read_text()))
    # (a file that no module names isn't taken)
    for path in source.glob("*.rt"):
        if path != root and path.stem not in kept:
            path.unlink()


def run_tests(folder, crate):
    ran = subprocess.run(
        ["rt", "try", "--test"], cwd=folder / "crates" / crate, stdin=subprocess.DEVNULL, stdout=subprocess.PIPE, stderr=subprocess.STDOUT, text=True
    )
    return ran.returncode, ran.stdout


def try_by_test(body):
    """The verdict on a wrong body that a test is to refuse. The test passes without it."""
    crate, test = body.test
    module, _, function = test.partition("::")
    with tempfile.TemporaryDirectory(prefix="wrong-body-") as room:
        folder = copy_of_sources(pathlib.Path(room))
        source = folder / "crates" / crate / "src"
        if not re.search(rf"#\[test\]\nfn {function}\(", (source / f"{module}.rt").read_text()):
            return False, f"there is no test {test} in {crate}"
        only_modules(source, module)
        status, said = run_tests(folder, crate)
        if status != 0:
            return False, f"the tests of {test} don't pass without it: {said.strip()[-600:]}"
        for path, text in body.changed().items():
            (folder / path.relative_to(ROOT)).write_text(text)
        status, said = run_tests(folder, crate)
    if status == 0 or not re.search(rf"^test {test} .*FAILED$", said, re.M):
        return False, f"the test {test} doesn't refuse it: {said.strip()[-600:]}"
    return True, f"refused by the test {test} of {crate}"


def wrong_bodies(names):
    paths = sorted(HERE.glob("*.edit"))
    unknown = set(names) - {it.stem for it in paths}
    if unknown:
        raise Unusable(f"there is no wrong body {' '.join(sorted(unknown))}")
    return [WrongBody(it) for it in paths if not names or it.stem in names]


def verdicts(bodies, command):
    """Whether each wrong body is refused as it is to be, and what to print of it."""
    by_proof = [it for it in bodies if it.clauses]
    if by_proof:
        with tempfile.TemporaryDirectory(prefix="wrong-bodies-") as room:
            folder = copy_of_sources(pathlib.Path(room))
            if command:
                yield from ((it, *try_by_check(folder, it, command)) for it in by_proof)
            else:
                yield from try_by_proof(folder, by_proof)
    for body in bodies:
        if body.test:
            yield body, *try_by_test(body)


def main():
    words = argparse.ArgumentParser(usage=__doc__.split("\n")[0], description=__doc__, formatter_class=argparse.RawDescriptionHelpFormatter)
    words.add_argument("names", nargs="*")
    words.add_argument("--list", action="store_true")
    words.add_argument("--applies", action="store_true")
    words.add_argument("--check", metavar="COMMAND")
    words = words.parse_args()
    try:
        bodies = wrong_bodies(words.names)
        if words.list:
            for body in bodies:
                print(f"{body.name}: {body.what}\n    in {body.crate}, refused by {body.refused_by()}")
            return 0
        for body in bodies:
            body.changed()
            if body.clauses:
                body.function()
    except Unusable as why:
        print(f"wrong_bodies: {why}")
        return 1
    if words.applies:
        print(f"wrong_bodies: {len(bodies)} can be tried")
        return 0
    failed = 0
    for body, is_well, said in verdicts(bodies, words.check):
        print(f"{body.name}: {said}", flush=True)
        failed += not is_well
    print(f"wrong_bodies: {len(bodies) - failed} of {len(bodies)} are refused as they are to be")
    return 1 if failed else 0


if __name__ == "__main__":
    sys.exit(main())
