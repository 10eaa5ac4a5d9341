#!/usr/bin/env python3
"""Runs the commands of README.md, examples/commands.txt and docs/USAGE.md, each file's in a folder of its own, and compares what each prints,
and its exit status, with what stands below it.

    tools/examples.py PROGRAM

A command whose tool isn't installed is passed over, and so are those that read a file that it would have written.
"""
import pathlib
import re
import shutil
import subprocess
import sys
import tempfile

TOP = pathlib.Path(__file__).resolve().parent.parent
# Each file, and where in a checkout its commands are run.
SOURCES = {"README.md": ".", "examples/commands.txt": "examples", "docs/USAGE.md": "."}
TOOLS = ("node", "clang", "wasm-ld", "wasm-opt")


def commands(text):
    """Each command, which begins with `$`, with the lines that are to be printed, which end at an empty one."""
    rows = []
    for block in text.split("\n\n"):
        started = False
        for line in map(str.strip, block.splitlines()):
            if line.startswith("$ "):
                rows.append((line[2:], []))
                started = True
            elif started:
                rows[-1][1].append(line)
    return rows


def printed(command, program, folder):
    """The lines that the command prints in the folder."""
    shell = f'bridge() {{ "{program}" "$@"; }}; {command}'
    done = subprocess.run(["bash", "-c", shell], cwd=folder, stdout=subprocess.PIPE, stderr=subprocess.STDOUT)
    lines = done.stdout.decode("utf-8", "backslashreplace").splitlines()
    return lines + ([f"status {done.returncode}"] if done.returncode else [])


def files_of(command):
    """The files that a command writes: those that it names for its output, and the objects of a compiler."""
    return set(re.findall(r"(?:>|-o) +(\S+)", command)) | {pathlib.Path(source).stem + ".o" for source in re.findall(r"\S+\.c\b", command)}


def passed_over(rows):
    """The commands that can't be run, each with the tool that isn't installed."""
    over, missing = {}, {}
    for command, _ in rows:
        words = command.split()
        tools = [words[0]] if words[0] in TOOLS and not shutil.which(words[0]) else [missing[w] for w in words if w in missing]
        if tools:
            over[command] = tools[0]
            missing |= dict.fromkeys(files_of(command), tools[0])
    return over


def tried(source, folder, program):
    """How many commands of a file were run in the folder, which tools weren't there for others, and how many print something else."""
    rows = commands((TOP / source).read_text())
    if not rows:
        sys.exit(f"{source} has no command")
    over = passed_over(rows)
    wrong = 0
    for command, wanted in rows:
        if command in over:
            continue
        lines = printed(command, program, folder)
        if lines != wanted:
            wrong += 1
            print(f"{source}: $ {command}", *lines, "in place of:", *wanted, "", sep="\n")
    return sum(command not in over for command, _ in rows), list(over.values()), wrong


def tried_apart(source, program):
    """The same in a copy of the examples, where bin/bridge is the program."""
    with tempfile.TemporaryDirectory() as name:
        room = pathlib.Path(name)
        for part in ("examples", "host"):
            shutil.copytree(TOP / part, room / part)
        (room / "bin").mkdir()
        (room / "bin" / "bridge").symlink_to(program)
        return tried(source, room / SOURCES[source], program)


def main():
    if len(sys.argv) != 2:
        sys.exit(__doc__)
    program = pathlib.Path(sys.argv[1]).resolve()
    counts = [tried_apart(source, program) for source in SOURCES]
    run, wrong = sum(count[0] for count in counts), sum(count[2] for count in counts)
    skipped = [tool for _, tools, _ in counts for tool in tools]
    for tool in sorted(set(skipped)):
        print(f"{skipped.count(tool)} examples skipped: {tool} is not installed")
    print(f"{run} examples run, {wrong} differ")
    return 1 if wrong else 0


sys.exit(main())
