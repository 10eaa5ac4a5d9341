#!/usr/bin/env python3
"""Tries bin/bridge and .ci/run on small checkouts of their own, with stubs in place of the prover and of the gate's other checks.

    tools/first_call_tests.py [CASE..]

Each case also asserts that no temporary folder, no half of a file and nothing in the checkout stays behind.
A case that the system can't show is told and passed over."""
import concurrent.futures
import os
import pathlib
import re
import shutil
import signal
import subprocess
import sys
import tempfile

sys.dont_write_bytecode = True

from small_checkout import CHECKS, FILES, GIVEN, NOBODY, PROVING, RT, TOP, Case, Ended, Failed, PassedOver, shown, without_room

# ---- the cases


def first_and_later_calls(case):
    case.builds(shown())
    case.same("what the proof was given", case.noted("given"), GIVEN)
    case.same("its crates", case.noted("given crates"), ["bridge: words", "words: clap"])
    case.same("the checkout has no program", (case.top / "crates/bridge/out").exists(), False)
    case.settle()
    case.runs(shown())
    asked = case.noted("calls")
    case.runs(shown())
    case.same("an unchanged checkout asks nothing of the kit", case.noted("calls"), asked)
    case.same("programs made", case.made(), 1)
    case.is_clean()


def another_checkout(case):
    case.builds(shown())
    other = case.room / "other"
    case.checkout(other)
    case.runs(shown(), at=other / "bin/bridge")
    case.same("programs made", case.made(), 1)
    case.is_clean()


def removed_programs(case):
    """A program that is gone is made again, also where the sum of its files was noted."""
    case.settle()
    case.builds(shown())
    for kept in case.kept():
        (case.home / ".cache/bridge" / kept).unlink()
    case.builds(shown(made=2))
    shutil.rmtree(case.home / ".cache")
    case.builds(shown(made=3))
    case.is_clean()


def no_handles(case):
    (case.top / "HANDLES").unlink()
    case.refused(case.call("x"), "/HANDLES is missing")
    case.same("programs kept", case.kept(), [])
    case.is_clean()


def no_handles_later(case):
    case.settle()
    case.builds(shown())
    (case.top / "HANDLES").unlink()
    case.refused(case.call("x"), "/HANDLES is missing")
    case.is_clean()


def no_crates(case):
    shutil.rmtree(case.top / "crates/words")
    case.refused(case.call("x"), "/crates lacks a crate")
    case.write("crates.txt", "words: clap\n")
    case.refused(case.call("x"), "crates.txt is missing, or has no line of the crate bridge")
    (case.top / "crates.txt").unlink()
    case.refused(case.call("x"), "crates.txt is missing, or has no line of the crate bridge")
    case.is_clean()


def link_among_sources(case):
    source = case.top / "crates/words/src/lib.rt"
    source.rename(case.room / "lib.rt")
    source.symlink_to(case.room / "lib.rt")
    case.refused(case.call("x"), "a link or an unreadable file")
    case.same("calls of the prover", "rt ci" in case.noted("calls"), False)
    case.is_clean()


def no_kit(case):
    (case.commands / "rt").rename(case.room / "rt")
    case.refused(case.call("x"), "no rt in PATH")
    (case.room / "rt").rename(case.commands / "rt")
    case.settle()
    case.builds(shown())
    (case.commands / "rt").unlink()
    case.runs(shown())
    case.write("crates/words/src/lib.rt", "two\n")
    case.refused(case.call("x"), "no rt in PATH")
    case.is_clean()


def version_fails(case):
    case.tell("version fails")
    case.refused(case.call("x"), "`rt version` doesn't say which kit this is")
    case.untell("version fails")
    case.tell("version")
    case.refused(case.call("x"), "`rt version` doesn't say which kit this is")
    case.same("programs kept", case.kept(), [])
    case.is_clean()


def another_kit(case):
    case.settle()
    case.builds(shown())
    case.tell("version", "kit 2\n")
    # (a kit has another file `rt`, which the stub has not)
    (case.commands / "rt").touch()
    case.builds(shown(made=2))
    case.tell("version", "kit 1\n")
    (case.commands / "rt").touch()
    case.runs(shown())
    case.same("programs kept", len(case.kept()), 2)
    case.is_clean()


def changed_sources(case):
    """Each change of what the proof reads is seen, and none of what it doesn't read proves anew."""
    case.settle()
    case.builds(shown())
    case.write("crates/words/src/lib.rt", "two\n")
    case.builds(shown("two", made=2))
    (case.top / "crates/words/proofs/More.antt").unlink()
    case.builds(shown("two", "Laws.antt", made=3))
    (case.top / "crates/words/proofs/Laws.antt").rename(case.top / "crates/words/proofs/Rules.antt")
    case.builds(shown("two", "Rules.antt", made=4))
    case.write("HANDLES", "Handles allowed: Net.\n")
    case.builds(shown("two", "Rules.antt", made=5))
    case.write("crates.txt", FILES["crates.txt"].replace("words: clap", "words: clap thiserror"))
    case.builds(shown("two", "Rules.antt", made=6))
    for name in ("crates/tests/src/lib.rt", "crates/words/must-fail/turned.edit"):
        case.write(name, "changed\n")
        case.runs(shown("two", "Rules.antt", made=6))
    (case.top / "crates/words/proofs/Rules.antt").unlink()
    case.same("programs made", case.made(), 6)
    case.is_clean()


def changed_lists(case):
    """A change of HANDLES or of the list of crates alone is seen, after a call that noted how all files stood."""
    lists = {"HANDLES": "Handles allowed: Net.\n", "crates.txt": FILES["crates.txt"].replace("bridge: words", "bridge: words clap")}
    case.settle()
    case.builds(shown())
    for made, (name, text) in enumerate(lists.items(), 2):
        case.runs(shown(made=made - 1))
        case.write(name, text)
        case.builds(shown(made=made))
        case.settle()
    case.is_clean()


def old_times(case):
    """A source that is put back with an old time, as archives do, is another source."""
    source = case.top / "crates/words/src/lib.rt"
    case.settle()
    before = source.stat()
    case.builds(shown())
    case.runs(shown())
    source.write_text("two\n")
    os.utime(source, ns=(before.st_atime_ns, before.st_mtime_ns))
    case.builds(shown("two", made=2))
    case.settle()
    case.runs(shown("two", made=2))
    source.write_text("one\n")
    os.utime(source, (0, 0))
    case.runs(shown())
    case.same("programs made", case.made(), 2)
    case.is_clean()


def fast_changes(case):
    """Sources that change right before a call: another change may show the same time, so nothing is noted of them."""
    noted = []
    for source in ("two", "six", "ten", "two"):
        case.write("crates/words/src/lib.rt", f"{source}\n")
        ended = case.call("check-asm", "a b.js")
        case.same("the call", ended.output.split(",")[0], f"source {source}")
        noted.append(any((case.home / ".cache/bridge").glob("*.last")))
    # (where the machine is slow, a call may come late)
    case.same("calls that note a fresh change", all(noted), False)
    case.same("programs made", case.made(), 3)
    case.is_clean()


def edited_while_it_proves(case):
    case.settle()
    case.tell("hold")
    first = case.begin("check-asm", "a b.js")
    case.await_note("proving")
    case.write("crates/words/src/lib.rt", "two\n")
    case.untell("hold")
    ended = Ended.of(first)
    case.ran(ended, shown(), report=PROVING + "bridge: files changed while the program was proved: it is that of the files as they were\n")
    case.builds(shown("two", made=2))
    case.runs(shown("two", made=2))
    case.is_clean()


def edited_before_it_is_copied(case):
    """The program is kept by what was proved, and not by what stood there before."""
    edit = f"echo two >'{case.top}/crates/words/src/lib.rt'"
    case.command("mktemp", f'#!/usr/bin/env bash\n{edit}\nexec "{shutil.which("mktemp")}" "$@"\n')
    ended = case.call("check-asm", "a b.js")
    case.same("the call", ended.output.split(",")[0], "source two")
    case.command("mktemp", f'#!/usr/bin/env bash\nexec "{shutil.which("mktemp")}" "$@"\n')
    case.runs(shown("two"))
    case.write("crates/words/src/lib.rt", "one\n")
    case.builds(shown(made=2))
    case.is_clean()


def kit_changes_while_it_proves(case):
    case.tell("next version", "kit 2\n")
    ended = case.call("x")
    case.same("the call", (ended.status, ended.output), (70, ""))
    case.same("its report", ended.report, PROVING + "bridge: the kit changed while it proved the program\n")
    case.same("programs kept", case.kept(), [])
    case.builds(shown(made=2))
    case.is_clean()


def at_once(case, *places):
    """Calls that all begin before a program is made: each says first what it does."""
    case.tell("hold")
    calls = [case.begin("check-asm", "a b.js", at=place) for place in places]
    lines = sorted(without_room(call.stderr.readline().decode()) for call in calls)
    case.same("calls that wait", lines[:-1], ["bridge: another call is proving the same files; this one waits for it\n"] * (len(places) - 1))
    case.same("the call that proves", lines[-1], PROVING)
    case.untell("hold")
    for call in calls:
        case.ran(Ended.of(call), shown())
    case.same("programs made", case.made(), 1)
    case.is_clean()


def two_at_once(case):
    if not shutil.which("flock"):
        raise PassedOver("flock is not installed")
    other = case.room / "other"
    case.checkout(other)
    at_once(case, case.top / "bin/bridge", case.top / "bin/bridge", other / "bin/bridge")


def two_at_once_without_flock(case):
    (case.commands / "flock").unlink(missing_ok=True)
    at_once(case, case.top / "bin/bridge", case.top / "bin/bridge")


def waits_for_the_proof_alone(case):
    """A call that waits goes on when the program is there, while the call that proved it still runs it; and it can be told to end."""
    case.tell("hold")
    case.tell("run on")
    first = case.begin("hold")
    case.await_note("proving")
    second, third = case.begin("check-asm", "a b.js"), case.begin("x")
    for call in (second, third):
        case.same("a call that waits", call.stderr.readline().decode().startswith("bridge: another call"), True)
    third.terminate()
    case.same("a call that is told to end", Ended.of(third).status, 143)
    case.untell("hold")
    case.ran(Ended.of(second), shown())
    case.same("the first call still runs", first.poll(), None)
    case.untell("run on")
    case.same("the first call", Ended.of(first).output.splitlines()[:2], ["begun", shown()])
    case.same("programs made", case.made(), 1)
    case.is_clean()


def failed_build(case):
    case.tell("fails")
    case.refused(case.call("x"), "the program isn't proved: rt ci ended with status 3, ", PROVING + "words NOT PROVED\n")
    case.same("programs kept", case.kept(), [])
    case.untell("fails")
    case.builds(shown())
    case.is_clean()


def killed_proof(case):
    """The prover is ended from outside, as where memory runs out."""
    case.tell("hold")
    for number in (signal.SIGTERM, signal.SIGKILL):
        call = case.begin("x")
        case.await_note("proving")
        os.kill(int(case.noted("proving")[0]), number)
        case.untell("proving")
        case.refused(Ended.of(call), f"the program isn't proved: rt ci ended with status {128 + number}, ", PROVING)
    case.same("programs kept", case.kept(), [])
    case.is_clean()


def nothing_built(case):
    case.tell("makes nothing")
    ended = case.call("x")
    case.same("programs made", case.made(), 1)
    case.same("the call", (ended.status, ended.output), (70, ""))
    case.same("its report", ended.report, PROVING + "bridge: rt ci made no program\n")
    case.same("programs kept", case.kept(), [])
    case.is_clean()


def stopped(case):
    """A call that is told to end takes all away and ends its proof; what one leaves that is killed by force goes with the next."""
    case.tell("hold")
    for number, status in ((signal.SIGTERM, 143), (signal.SIGINT, 130), (signal.SIGHUP, 129)):
        call = case.begin("x")
        case.await_note("proving")
        prover = int(case.noted("proving")[0])
        case.untell("proving")
        call.send_signal(number)
        case.same("a stopped call", Ended.of(call).status, status)
        case.wait_until(lambda: not pathlib.Path(f"/proc/{prover}").exists(), "the proof goes on")
        case.is_clean()
    killed = case.begin("x")
    case.await_note("proving")
    killed.kill()
    Ended.of(killed)
    prover = int(case.noted("proving")[0])
    case.same("what is left", len(list(case.temporary.iterdir())), 1)
    call = case.begin("check-asm", "a b.js")
    case.same("a call beside the proof that is left", without_room(call.stderr.readline().decode()), PROVING)
    os.kill(prover, signal.SIGKILL)
    case.untell("hold")
    case.ran(Ended.of(call), shown())
    case.is_clean()


def read_only(case):
    """A checkout that its user can't write to."""
    if os.geteuid() == 0:
        case.user = {"user": NOBODY, "group": NOBODY, "extra_groups": []}
        for folder in (case.stub, case.home, case.temporary):
            os.chown(folder, NOBODY, NOBODY)
    for path in [case.top, *case.top.rglob("*")]:
        path.chmod(0o555 if path.is_dir() or os.access(path, os.X_OK) else 0o444)
    try:
        seen = case.call(at=case.commands / "touch", cwd="/")
        written = case.call(str(case.top / "crates/new"), at=case.commands / "touch", cwd="/")
    except OSError as error:
        raise PassedOver(f"no other user may run anything here: {error}") from error
    if seen.status != 1 or written.status == 0 or (case.top / "crates/new").exists():
        raise PassedOver("no user is kept from writing here")
    case.builds(shown(), cwd="/")
    case.runs(shown(), cwd="/")
    case.is_clean()
    for path in [case.top, *case.top.rglob("*")]:
        path.chmod(0o755)


def no_home(case):
    place = case.temporary / f"bridge-{os.geteuid()}"
    case.environment["HOME"] = None
    case.builds(shown())
    case.runs(shown())
    case.same("who may look into it", place.stat().st_mode & 0o777, 0o700)
    case.same("programs kept", len(case.kept(place)), 1)
    case.runs(shown(), HOME="not/absolute", XDG_CACHE_HOME="not/absolute")
    case.is_clean(place.name)


def no_home_and_another_owner(case):
    place = case.temporary / f"bridge-{os.geteuid()}"
    case.environment["HOME"] = None
    place.mkdir(mode=0o755)
    place.chmod(0o755)
    case.refused(case.call("x"), "isn't a folder of this user alone")
    place.rmdir()
    place.symlink_to(case.home)
    case.refused(case.call("x"), "isn't a folder of this user alone")
    place.unlink()
    place.write_text("")
    case.refused(case.call("x"), "isn't a folder of this user alone")
    place.unlink()
    if os.geteuid() == 0:
        place.mkdir(mode=0o700)
        os.chown(place, NOBODY, NOBODY)
        case.refused(case.call("x"), "isn't a folder of this user alone")
        place.rmdir()
    case.same("calls of the prover", case.noted("calls"), [])
    case.is_clean()


def other_homes(case):
    case.builds(shown(), XDG_CACHE_HOME=str(case.room / "elsewhere"))
    case.same("programs kept", len(case.kept(case.room / "elsewhere/bridge")), 1)
    case.same("programs at home", case.kept(), [])
    case.refused(case.call("x", HOME="/dev/null"), "/dev/null/.cache/bridge can't be made")
    case.is_clean()


def no_room(case):
    case.refused(case.call("x", TMPDIR=str(case.room / "none")), "no temporary folder can be made in")
    case.refused(case.call("x", XDG_CACHE_HOME="/proc"), "/proc/bridge can't be made")
    case.same("calls of the prover", "rt ci" in case.noted("calls"), False)
    case.is_clean()


def no_room_for_the_program(case):
    """The program is longer than what may still be written, as on a disk that is full; the prover may write more."""
    case.command("rt", RT.replace("#!/usr/bin/env bash\n", "#!/usr/bin/env bash\nulimit -S -f unlimited\n", 1))
    case.tell("long", "#" * 100_000)
    shell = f"ulimit -S -f 50; exec '{case.top}/bin/bridge' x"
    ended = case.call("-c", shell, at=case.commands / "bash")
    case.same("the call", (ended.status, ended.output), (70, ""))
    case.same("its last line", bool(re.fullmatch("bridge: the program can't be written to .*", ended.report.splitlines()[-1])), True)
    case.same("programs made", case.made(), 1)
    case.same("programs kept", case.kept(), [])
    case.is_clean()


def nowhere_to_run(case):
    """A place that keeps files, of which none can run, is refused before the proof."""
    case.command("chmod", "#!/bin/sh\nexit 0\n")
    case.refused(case.call("x"), "no program can be kept and run in")
    case.same("calls of the prover", "rt ci" in case.noted("calls"), False)
    case.is_clean()


def spaces(case):
    case.builds(shown())
    case.runs(shown(), at="bin/bridge", cwd=case.top)
    case.runs(shown(), at="../bin/bridge", cwd=case.top / "crates")
    case.same("programs made", case.made(), 1)
    case.same("where it is", " " in str(case.top), True)
    case.is_clean()


def links(case):
    """A link from a folder of PATH, and a link to a link, both relative."""
    folder = case.room / "a bin"
    folder.mkdir()
    (folder / "bridge").symlink_to("../checkout/bin/bridge")
    (folder / "again").symlink_to("bridge")
    (folder / "whole").symlink_to(case.top / "bin/bridge")
    case.builds(shown(), at=folder / "bridge")
    for name in ("bridge", "again", "whole"):
        case.runs(shown(), at=folder / name, cwd="/")
        case.runs(shown(), at=f"./{name}", cwd=folder)
        path = f"{folder}:{case.environment['PATH']}"
        by_name = case.call("-c", f"{name} check-asm 'a b.js'", at=case.commands / "bash", cwd="/", PATH=path, CDPATH=str(case.room))
        case.ran(by_name, shown())
    case.same("programs made", case.made(), 1)
    case.is_clean()


def copied_script(case):
    shutil.copy(case.top / "bin/bridge", case.room / "bridge")
    case.refused(case.call("x", at=case.room / "bridge"), "doesn't stand in a checkout")
    case.is_clean()


def replaced_while_it_runs(case):
    """The gate keeps a program anew by the name of one that runs."""
    case.builds(shown())
    case.tell("run on")
    running = case.begin("hold")
    case.same("its first line", running.stdout.readline(), b"begun\n")
    ended = case.gate()
    case.same("the gate", ended.status, 0)
    case.untell("run on")
    case.ran(Ended.of(running), shown(), words=("hold",))
    case.runs(shown(made=2))
    case.same("programs kept", len(case.kept()), 1)
    case.is_clean()


def gate_keeps(case):
    ended = case.gate(cwd="/")
    case.same("the gate", (ended.status, ended.output, ended.report), (0, "", ""))
    case.same("its calls", [line for line in case.noted("calls") if line != "rt version"], ["rt ci", *CHECKS])
    case.same("what was proved", "./crates/tests/src/lib.rt" in case.noted("given"), True)
    case.same("edits", "./crates/words/must-fail/turned.edit" in case.noted("given"), True)
    case.runs(shown())
    case.same("programs made", case.made(), 1)
    case.is_clean()


def gate_without_home(case):
    case.environment["HOME"] = None
    case.same("the gate", case.gate().status, 0)
    case.runs(shown())
    case.same("programs made", case.made(), 1)
    case.is_clean(f"bridge-{os.geteuid()}")


def gate_fails(case):
    """It keeps no program before all of its checks have passed, and ends with the prover's status."""
    case.tell("fails")
    case.same("the gate", case.gate().status, 3)
    case.same("its calls", [line for line in case.noted("calls") if line != "rt version"], ["rt ci"])
    case.untell("fails")
    for check in CHECKS:
        case.tell("failing", check.split()[1])
        case.same(f"the gate with a failing {check}", case.gate().status, 1)
        case.same("its last call", case.noted("calls")[-1], check)
        case.same("programs kept", case.kept(), [])
    case.is_clean()


def gate_over_changes(case):
    """A program of files that changed during the run is not kept, whatever their times say; nor is one that can't be."""
    source = case.top / "crates/words/src/lib.rt"
    case.tell("hold")
    gate = case.begin(at=case.top / ".ci/run")
    case.await_note("proving")
    for text in ("two\n", "one\n"):
        source.write_text(text)
        os.utime(source, (0, 0))
    case.untell("hold")
    ended = Ended.of(gate)
    case.same("the gate", (ended.status, ended.output), (0, "the program isn't kept for bin/bridge: files changed during the run\n"))
    case.tell("edit")
    case.same("the gate", case.gate().output, "the program isn't kept for bin/bridge: files changed during the run\n")
    case.untell("edit")
    (case.top / "HANDLES").unlink()
    case.same("the gate", case.gate().output, "the program isn't kept for bin/bridge\n")
    case.write("HANDLES", FILES["HANDLES"])
    ended = case.gate(HOME="/dev/null")
    case.same("the gate", (ended.status, ended.output), (0, "the program isn't kept for bin/bridge\n"))
    case.command("chmod", "#!/bin/sh\nexit 0\n")
    ended = case.gate()
    case.same("the gate", (ended.status, ended.output), (0, "the program isn't kept for bin/bridge\n"))
    case.same("programs kept", case.kept(), [])
    case.is_clean()


def gate_is_plain(case):
    """`rt ci` stands on a line of its own, without names or flags, and nothing that changes a file stands before it."""
    lines = (TOP / ".ci/run").read_text().splitlines()
    plain = [line for line in lines if re.search(r"^[^#]*\brt ci *(\|\| *exit.*|&&.*|;.*)?$", line)]
    case.same("the line", plain, ["rt ci || exit $?"])
    before = "\n".join(lines[:lines.index(plain[0])])
    case.same("commands before it", re.findall(r"\b(?:cp|mv|rm|ln|tar|sed|git|mkdir|mktemp|touch|tee|dd)\b|>", re.sub("(?m)^#.*", "", before)), [])
    case.is_clean()


CASES = [
    first_and_later_calls, another_checkout, removed_programs, no_handles, no_handles_later, no_crates, link_among_sources, no_kit, version_fails,
    another_kit, changed_sources, changed_lists, old_times, fast_changes, edited_while_it_proves, edited_before_it_is_copied,
    kit_changes_while_it_proves, two_at_once, two_at_once_without_flock, waits_for_the_proof_alone, failed_build, killed_proof, nothing_built,
    stopped, no_room_for_the_program, nowhere_to_run, read_only, no_home, no_home_and_another_owner, other_homes, no_room, spaces, links,
    copied_script, replaced_while_it_runs, gate_keeps, gate_without_home, gate_fails, gate_over_changes, gate_is_plain,
]
FOLDERS = {"spaces": "a check out"}


def tried(case_of):
    """The assertions that hold in a case, whether it was passed over, and why it failed, if it did."""
    name = case_of.__name__
    room = tempfile.mkdtemp(prefix="bridge tests " if name in FOLDERS else "bridge-tests-")
    os.chmod(room, 0o755)
    case = Case(pathlib.Path(room), FOLDERS.get(name, "checkout"))
    try:
        case_of(case)
        return case.asserted, None, None
    except PassedOver as why:
        return 0, f"{name}: passed over: {why}", None
    except (Failed, OSError, subprocess.SubprocessError) as error:
        return case.asserted, None, f"{name}: {error}"
    finally:
        # (what a failed case left running ends with its folder)
        shutil.rmtree(room, ignore_errors=True)


def main():
    wanted = [case_of for case_of in CASES if case_of.__name__ in sys.argv[1:] or not sys.argv[1:]]
    if not wanted:
        sys.exit(__doc__)
    # (a gate in the background is deaf to these, and what it calls would be)
    for number in (signal.SIGINT, signal.SIGHUP):
        signal.signal(number, lambda number, _: sys.exit(128 + number))
    with concurrent.futures.ThreadPoolExecutor(8) as pool:
        answers = list(pool.map(tried, wanted))
    for _, passed_over, wrong in answers:
        for line in filter(None, (passed_over, wrong)):
            print(line)
    failed = sum(wrong is not None for *_, wrong in answers)
    print(f"first call: {len(wanted)} cases, {sum(count for count, *_ in answers)} assertions, {failed} cases fail")
    return 1 if failed else 0


if __name__ == "__main__":
    sys.exit(main())
