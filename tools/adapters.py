#!/usr/bin/env python3
"""Runs the program over real files and streams, and compares how it ends with what docs/USAGE.md says.

    tools/adapters.py PROGRAM

Files: directories, files that can't be read or aren't there, pipes, devices, and lengths at the limit. Streams: full disks, closed descriptors,
pipes that nobody reads, and pipes that take little at a time. A case that the system can't show is told and passed over."""
import os
import pathlib
import resource
import shutil
import subprocess
import sys
import tempfile
import time

LIMIT = 16_777_216
SUM = b'function m(){"use asm";function f(a,b){a=a|0;b=b|0;return a+b|0;}return f;}'
COUNTED = b"asm.js functions 1 tables 0 exports 1 foreign 0\n"
USAGE = b"usage: bridge COMMAND [--heap N] [--steps N] [FILE] [SCRIPT]\n"
READ_FAULT = (5, b"", b"read fault\n")
# A module of WebAssembly that a custom section fills up to the limit: its size takes four bytes, as 16,777,203 does.
FULL_MODULE = b"\0asm\x01\0\0\0\0\xf3\xff\xff\x07\x01n"


def bounded():
    resource.setrlimit(resource.RLIMIT_STACK, (8 << 20, 8 << 20))


class Cases:
    """The program in a folder of files; how many cases ran, and which ended in another way."""

    def __init__(self, program, folder):
        self.folder = folder
        self.program = str(folder / "bridge")
        # (another user may not get at the place where it was built)
        shutil.copy(program, self.program)
        os.chmod(self.program, 0o755)
        os.chmod(folder, 0o755)
        self.ran, self.wrong = 0, []

    def run(self, words, **how):
        how = {"stdin": subprocess.DEVNULL, "stdout": subprocess.PIPE, "stderr": subprocess.PIPE, **how}
        done = subprocess.run([self.program, *words], cwd=self.folder, preexec_fn=bounded, timeout=300, **how)
        return done.returncode, done.stdout, done.stderr

    def check(self, name, ended, wanted):
        self.ran += 1
        if ended != wanted:
            self.wrong.append(name)
            print(f"{name}: {ended!r:.300} in place of {wanted!r:.300}")

    def shell(self, name, line, wanted):
        """A command line of the shell, in which `bridge` is the program; the status is that of the program."""
        done = subprocess.run(
            ["bash", "-c", f'bridge() {{ "{self.program}" "$@"; }}; {line}'], cwd=self.folder, stdin=subprocess.DEVNULL, capture_output=True, timeout=300
        )
        self.check(name, (done.returncode, done.stdout, done.stderr), wanted)


def files_that_fail(cases):
    folder = cases.folder
    (folder / "loop").symlink_to("loop")
    rows = [
        ("a directory", "d", READ_FAULT),
        ("a name that isn't there", "no.js", (7, b"", b"missing: no.js\n")),
        ("an empty name", "", (7, b"", b"missing: \n")),
        ("a name below a directory that isn't there", "no/sum.js", (7, b"", b"missing: no/sum.js\n")),
        ("a name below a file", "sum.js/sum.js", READ_FAULT),
        ("a name that is too long", "n" * 5000, READ_FAULT),
        ("a link to itself", "loop", READ_FAULT),
        ("a file whose reads fail", "/proc/self/mem", READ_FAULT),
        ("an empty file", "/dev/null", (2, b"", b"asm.js refused: A5 Grammar at 0\n")),
        ("a file without end", "/dev/zero", (8, b"", b"too large: /dev/zero\n")),
        ("a name that isn't UTF-8", b"\xff.js", (1, b"", USAGE)),
    ]
    for name, file, wanted in rows:
        cases.check(name, cases.run(["check-asm", file]), wanted)
    cases.check("a script that is a directory", cases.run(["run-asm", "sum.js", "d"]), READ_FAULT)
    cases.check("a script that isn't there", cases.run(["run-asm", "sum.js", "no.txt"]), (7, b"", b"missing: no.txt\n"))


def files_of_another_user(cases):
    secret = cases.folder / "secret.js"
    secret.write_bytes(SUM)
    os.chmod(secret, 0)
    how = {"user": "nobody"} if os.geteuid() == 0 else {}
    try:
        # (a user who may run nothing here shows nothing)
        if cases.run(["check-asm", "sum.js"], **how) != (0, COUNTED, b""):
            raise PermissionError
        ended = cases.run(["check-asm", "secret.js"], **how)
    except (OSError, LookupError, subprocess.SubprocessError):
        print("a file that may not be read: passed over, since the program can't run as another user here")
        return
    cases.check("a file that may not be read", ended, READ_FAULT)


def pipes_as_files(cases):
    cases.shell("a pipe", "cat sum.js | bridge check-asm /dev/stdin", (0, COUNTED, b""))
    cases.shell("a pipe that gives little at a time", "(head -c 30 sum.js; sleep 0.2; tail -c +31 sum.js) | bridge check-asm /dev/stdin", (0, COUNTED, b""))
    cases.shell("two pipes", "bridge run-asm <(cat sum.js) <(echo call f 2 3)", (0, b"result 5\nend done\n", b""))
    cases.shell("a pipe without end", "yes | bridge check-asm /dev/stdin", (8, b"", b"too large: /dev/stdin\n"))
    cases.shell("an empty pipe", "true | bridge check-asm /dev/stdin", (2, b"", b"asm.js refused: A5 Grammar at 0\n"))
    cases.shell("a named pipe", "mkfifo p && (cat sum.js > p &) && bridge check-asm p", (0, COUNTED, b""))


def lengths(cases):
    spaces = cases.folder / "spaces.js"
    full = cases.folder / "full.wasm"
    spaces.write_bytes(b" " * LIMIT)
    full.write_bytes(FULL_MODULE.ljust(LIMIT, b"\0"))
    cases.check("spaces up to the limit", cases.run(["check-asm", "spaces.js"]), (2, b"", b"asm.js refused: A5 Grammar at 16777216\n"))
    counted = b"wasm functions 0 imports 0 exports 0\n"
    cases.check("a module up to the limit", cases.run(["check-wasm", "full.wasm"]), (0, counted, b""))
    cases.check("a script past the limit", cases.run(["run-asm", "sum.js", "/dev/zero"]), (8, b"", b"too large: /dev/zero\n"))
    for name in ("spaces.js", "full.wasm"):
        with open(cases.folder / name, "ab") as out:
            out.write(b" ")
        command = "check-asm" if name.endswith("js") else "check-wasm"
        cases.check(f"{name} past the limit", cases.run([command, name]), (8, b"", f"too large: {name}\n".encode()))


def unread():
    """The end of a pipe that nobody reads."""
    reader, writer = os.pipe()
    os.close(reader)
    return writer


def streams_that_fail(cases):
    done, refused = ["check-asm", "sum.js"], ["check-asm", "no.js"]
    line = b"missing: no.js\n"
    with open("/dev/full", "wb") as full:
        cases.check("output to a full disk", cases.run(done, stdout=full), (6, None, b""))
        cases.check("a report to a full disk", cases.run(refused, stderr=full), (6, b"", None))
        cases.check("a report to a full disk that isn't needed", cases.run(done, stderr=full), (0, COUNTED, None))
        cases.check("output to a full disk that isn't needed", cases.run(refused, stdout=full), (7, None, line))
    pipe = unread()
    cases.check("output that nobody reads", cases.run(done, stdout=pipe), (6, None, b""))
    cases.check("a report that nobody reads", cases.run(refused, stderr=pipe), (6, b"", None))
    os.close(pipe)
    with open("/dev/null", "rb") as closed:
        cases.check("output that is open for reads alone", cases.run(done, stdout=closed), (6, None, b""))
    cases.shell("closed output", "bridge check-asm sum.js >&-", (6, b"", b""))
    cases.shell("a closed report", "bridge check-asm no.js 2>&-", (6, b"", b""))
    cases.shell("a closed report that isn't needed", "bridge check-asm sum.js 2>&-", (0, COUNTED, b""))
    cases.shell("nothing open", "bridge check-asm sum.js <&- >&- 2>&-", (6, b"", b""))
    cases.shell("closed input", "bridge check-asm sum.js <&-", (0, COUNTED, b""))
    # (the file comes only after its reader has gone)
    cases.shell("a reader that has gone", '(sleep 0.5; cat sum.js) | bridge check-asm /dev/stdin | head -c 0; echo "${PIPESTATUS[1]}"', (0, b"6\n", b""))


def slow_readers(cases):
    """A long output through a pipe whose reader takes little at a time."""
    text = b"".join(b"function f%d(x){x=x|0;return x|0;}" % i for i in range(10_000))
    (cases.folder / "long.js").write_bytes(b'function m(){"use asm";' + text + b"return f0;}")
    _, whole, _ = cases.run(["show", "long.js"])
    child = subprocess.Popen([cases.program, "show", "long.js"], cwd=cases.folder, stdout=subprocess.PIPE)
    read = b""
    for piece in iter(lambda: os.read(child.stdout.fileno(), 5000), b""):
        read += piece
        time.sleep(0.0005)
    cases.check("a reader that takes little at a time", (child.wait(), read == whole, len(whole) > 300_000), (0, True, True))


def main():
    if len(sys.argv) != 2:
        sys.exit(__doc__)
    with tempfile.TemporaryDirectory() as room:
        folder = pathlib.Path(room)
        cases = Cases(pathlib.Path(sys.argv[1]).resolve(), folder)
        (folder / "sum.js").write_bytes(SUM)
        (folder / "d").mkdir()
        for part in (files_that_fail, files_of_another_user, pipes_as_files, lengths, streams_that_fail, slow_readers):
            part(cases)
    print(f"{cases.ran} cases of files and streams, {len(cases.wrong)} end in another way")
    return 1 if cases.wrong else 0


sys.exit(main())
