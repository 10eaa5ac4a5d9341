"""Small checkouts of bin/bridge and .ci/run, with stubs in place of the prover and of the gate's other checks, for first_call_tests.py.

The stub of `rt ci` makes a program that prints what stood in its sources, and how many programs were made before it, so that one that is stale
or was made twice is seen."""
import os
import pathlib
import re
import shutil
import subprocess
import time

TOP = pathlib.Path(__file__).resolve().parent.parent
SCRIPTS = ("bin/bridge", "tools/kept.sh", ".ci/run")
COMMANDS = "awk bash cat chmod cp cut dirname env find flock ln ls mkdir mktemp mv readlink rm sha256sum sleep sort stat sync tar touch tr uniq wc xargs"
LONGEST = 300  # seconds of a call
NOBODY = 65534

RT = r"""#!/usr/bin/env bash
# In place of the prover: it answers `rt version` and `rt ci`, and notes its calls in the folder STUB.
echo "rt $*" >>"STUB/calls"
if [ "$*" = version ]; then
  [ ! -e "STUB/version fails" ] || exit 1
  cat "STUB/version"
  exit
fi
[ "$*" = ci ] || exit 99
find . -mindepth 1 ! -name out | sort >"STUB/given"
cat crates.txt >"STUB/given crates"
echo "$BASHPID" >"STUB/proving"
for ((turns = 0; turns < 30000; turns++)); do [ -e "STUB/hold" ] || break; sleep 0.02; done
[ ! -e "STUB/next version" ] || mv "STUB/next version" "STUB/version"
if [ -e "STUB/fails" ]; then
  echo "words NOT PROVED"
  exit 3
fi
echo made >>"STUB/made"
[ ! -e "STUB/makes nothing" ] || exit 0
mkdir -p crates/bridge/out
cat >crates/bridge/out/bridge.new <<END
#!/usr/bin/env bash
[ "\$1" != hold ] || { echo begun; for ((turns = 0; turns < 30000; turns++)); do [ -e "STUB/run on" ] || break; sleep 0.02; done; }
echo "source $(cat crates/words/src/lib.rt), proofs $(ls crates/words/proofs | tr '\n' ' '), made $(wc -l <"STUB/made")"
printf 'word %s\n' "\$@"
exit "\${#1}"
$(cat "STUB/long" 2>/dev/null)
END
chmod 755 crates/bridge/out/bridge.new
mv crates/bridge/out/bridge.new crates/bridge/out/bridge
"""

# In place of python3 and node, which .ci/run calls for its checks.
CHECK = r"""#!/usr/bin/env bash
echo "NAME ${1##*/}" >>"STUB/calls"
[ ! -e "STUB/edit" ] || echo edited >crates/words/src/lib.rt
[ "$(cat "STUB/failing" 2>/dev/null)" != "${1##*/}" ]
"""

FILES = {
    "HANDLES": "Handles allowed: none.\n",
    "crates.txt": "# A crate, and the libraries that it uses.\nbridge: words\nwords: clap\n\ntests: words\n",
    "crates/bridge/src/main.rt": "main\n",
    "crates/bridge/status": "1\n",
    "crates/words/src/lib.rt": "one\n",
    "crates/words/proofs/Laws.antt": "-- Laws.\n",
    "crates/words/proofs/More.antt": "-- More.\n",
    "crates/words/must-fail/turned.edit": "old: one\n",
    "crates/tests/src/lib.rt": "tests\n",
}
# What `rt ci` of the first call is to see.
GIVEN = """./.git ./HANDLES ./crates ./crates.txt ./crates/bridge ./crates/bridge/src ./crates/bridge/src/main.rt ./crates/bridge/status ./crates/words
./crates/words/proofs ./crates/words/proofs/Laws.antt ./crates/words/proofs/More.antt ./crates/words/src ./crates/words/src/lib.rt ./log""".split()
CHECKS = [
    "python3 first_call_tests.py", "python3 examples.py", "python3 believed.py", "python3 map.py", "python3 trails.py", "python3 adapters.py", "python3 refused_memory.py",
    "python3 compare", "python3 wat_tests.py", "python3 wat_texts.py", "node validity.mjs", "node host_tests.mjs", "node page.mjs",
]


PROVING = "bridge: proving and building the program takes half an hour to an hour and a half; ROOM/log says how far it is\n"


class Failed(Exception):
    pass


class PassedOver(Exception):
    pass


def shown(source="one", proofs="Laws.antt More.antt", made=1):
    """What the program of such sources prints of its own."""
    return f"source {source}, proofs {proofs} , made {made}"


class Ended:
    """How a call ended."""

    def __init__(self, status, output, report):
        self.status, self.output, self.report = status, output, report

    @classmethod
    def of(cls, process):
        output, report = process.communicate(timeout=LONGEST)
        return cls(process.returncode, output.decode(), without_room(report.decode()))


def without_room(report):
    """What a call reports, with its temporary folder named ROOM."""
    return re.sub(r"/[^;]*/bridge-room\.\d+\.\w{6}/", "ROOM/", report)


class Case:
    """A checkout with its stubs, home and temporary folder, and the number of assertions that hold."""

    def __init__(self, room, folder="checkout"):
        self.room, self.stub, self.top = room, room / "stub", room / folder
        self.home, self.temporary, self.commands = room / "home", room / "temporary", room / "commands"
        self.asserted = 0
        for made in (self.stub, self.home, self.temporary, self.commands):
            made.mkdir()
        for name in COMMANDS.split():
            if found := shutil.which(name):
                (self.commands / name).symlink_to(found)
        self.command("rt", RT)
        self.command("python3", CHECK.replace("NAME", "python3"))
        self.command("node", CHECK.replace("NAME", "node"))
        (self.stub / "version").write_text("kit 1\n")
        self.checkout(self.top)
        self.environment = {"PATH": str(self.commands), "HOME": str(self.home), "TMPDIR": str(self.temporary), "LC_ALL": "C.UTF-8"}
        self.user = {}

    def command(self, name, text):
        """Puts a script in the place of a command. That was a link to the machine's own, which must not be written to."""
        path = self.commands / name
        path.unlink(missing_ok=True)
        with open(path, "x") as out:
            out.write(text.replace("STUB", str(self.stub)))
        path.chmod(0o755)

    def checkout(self, top):
        """A checkout of the scripts, with the sources of a small program."""
        for name, text in FILES.items():
            (top / name).parent.mkdir(parents=True, exist_ok=True)
            (top / name).write_text(text)
        for name in SCRIPTS:
            (top / name).parent.mkdir(parents=True, exist_ok=True)
            shutil.copy(TOP / name, top / name)

    # ---- calls

    def begin(self, *words, at=None, cwd=None, **environment):
        """Begins a call of bin/bridge, or of what stands at the place."""
        known = {name: value for name, value in {**self.environment, **environment}.items() if value is not None}
        words = [str(at or self.top / "bin/bridge"), *words]
        pipes = {"stdin": subprocess.DEVNULL, "stdout": subprocess.PIPE, "stderr": subprocess.PIPE}
        return subprocess.Popen(words, cwd=cwd or self.room, env=known, **pipes, **self.user)

    def call(self, *words, **how):
        return Ended.of(self.begin(*words, **how))

    def gate(self, **how):
        return self.call(at=self.top / ".ci/run", **how)

    # ---- what the stubs do, and what they have noted

    def tell(self, name, text=""):
        (self.stub / name).write_text(text)

    def untell(self, name):
        (self.stub / name).unlink()

    def noted(self, name):
        path = self.stub / name
        return path.read_text().splitlines() if path.exists() else []

    def made(self):
        """How often a program was made."""
        return len(self.noted("made"))

    def write(self, name, text):
        path = self.top / name
        path.parent.mkdir(parents=True, exist_ok=True)
        path.write_text(text)

    def settle(self):
        """Waits until the last change lies so far back that a comparison is noted."""
        time.sleep(2.2)

    def await_note(self, name):
        self.wait_until(lambda: self.noted(name), f"the stub never noted {name!r}")

    def wait_until(self, holds, why):
        for _ in range(LONGEST * 50):
            if holds():
                return
            time.sleep(0.02)
        raise Failed(why)

    # ---- assertions

    def same(self, what, found, wanted):
        self.asserted += 1
        if found != wanted:
            raise Failed(f"{what}: {found!r} in place of {wanted!r}")

    def ran(self, ended, wanted, words=("check-asm", "a b.js"), report=""):
        """The call ran the program, which prints its words, and ends with a status of its own."""
        printed = "".join(f"{line}\n" for line in [wanted, *(f"word {word}" for word in words)])
        self.same("the call", (ended.output, ended.status), (printed, len(words[0])))
        self.same("its report", ended.report, report)

    def runs(self, wanted, **how):
        """A call runs such a program, and says nothing of its own."""
        self.ran(self.call("check-asm", "a b.js", **how), wanted)

    def builds(self, wanted, **how):
        """A call proves, and runs such a program."""
        before = self.made()
        ended = self.call("check-asm", "a b.js", **how)
        self.ran(ended, wanted, report=PROVING)
        self.same("programs made", self.made(), before + 1)

    def refused(self, ended, line, before=""):
        """The call ended with 70 and one line, behind what the prover said, and nothing was written or made."""
        made = self.made()
        self.same("a refused call", (ended.status, ended.output), (70, ""))
        self.same(f"{ended.report!r} begins with what was said before", ended.report.startswith(before), True)
        last = ended.report[len(before):]
        self.same(f"{last!r} says {line!r}", bool(re.fullmatch(f"bridge: .*{line}.*\n", last)), True)
        self.same("programs made", self.made(), made)

    def kept(self, folder=None):
        """The names of the programs that are kept."""
        folder = folder or self.home / ".cache/bridge"
        return [path.name for path in folder.glob("*") if re.fullmatch("[0-9a-f]{64}", path.name)] if folder.is_dir() else []

    def is_clean(self, *allowed):
        """Nothing half-written stays: among the temporary files, where programs are kept, in the checkout."""
        self.same("temporary files", [path.name for path in self.temporary.iterdir() if path.name not in allowed], [])
        places = [place for place in (self.home / ".cache/bridge", *self.temporary.glob("bridge-*")) if place.is_dir()]
        odd = [path.name for place in places for path in place.iterdir() if not re.fullmatch(r"[0-9a-f]{64}(\.last)?", path.name)]
        self.same("what is kept", odd, [])
        known = {self.top / name for name in [*FILES, *SCRIPTS]}
        self.same("files of the checkout", [path for path in self.top.rglob("*") if path.is_file() and path not in known and "out" not in path.parts], [])
