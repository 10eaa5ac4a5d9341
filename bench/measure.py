"""Runs programs, and prints their times and peak memory side by side."""
import os
import shutil
import subprocess
import sys
import tempfile
import time


def measured(words):
    """Runs a program once: its status, seconds and peak memory in MiB."""
    begin = time.monotonic()
    child = subprocess.Popen(words, stdout=subprocess.DEVNULL, stderr=subprocess.DEVNULL)
    _, status, usage = os.wait4(child.pid, 0)
    return os.waitstatus_to_exitcode(status), time.monotonic() - begin, usage.ru_maxrss / 1024


def compare_sessions(turns, held, content, tools):
    """Compares tools on sessions of so many turns, where one of the two files, the module or the script, is the same for each.

    The program and other numbers of turns come from the command line. `held` is that file's name and bytes, `content(turns)` gives
    the other's, and `tools(program, held)` the tools, from the program's path and that of the file that is held."""
    program = os.path.abspath(sys.argv[1])
    name, same = held
    with tempfile.TemporaryDirectory() as folder:
        path = os.path.join(folder, name)
        with open(path, "wb") as out:
            out.write(same)
        compare([int(word) for word in sys.argv[2:]] or turns, "turns", content, tools(program, path))


def compare(sizes, unit, content, tools):
    """Runs each tool that is installed once on a file of each size, and prints its seconds, its peak memory, its
    nanoseconds for each unit, how many times as long it took as on the size before, and, beside the others, how many
    times as long as they the first tool took.

    `content(size)` gives the file's bytes. A tool is its name, and a function from the file's path to the words of a call."""
    before = {}
    with tempfile.TemporaryDirectory() as folder:
        for size in sizes:
            file = os.path.join(folder, str(size))
            with open(file, "wb") as out:
                out.write(content(size))
            print(f"{size} {unit}, a file of {os.path.getsize(file)} bytes")
            before = compare_on(file, size, tools, before)


def compare_on(file, size, tools, before):
    """The rows of one size. Gives each tool's seconds; `before` has those on the size before."""
    first = tools[0][0]
    times = {}
    for name, words in tools:
        if not shutil.which(words(file)[0]):
            continue
        status, seconds, memory = measured(words(file))
        if status:
            print(f"  {name:14} failed with status {status}")
            continue
        row = f"  {name:14} {seconds:8.3f} s  {memory:7.1f} MiB  {seconds / size * 1e9:8.0f} ns each"
        if name in before:
            row += f"  {seconds / before[name]:5.1f} times the size before"
        if first in times:
            row += f"  {first} takes {times[first] / seconds:.2f} times as long"
        print(row)
        times[name] = seconds
    return times
