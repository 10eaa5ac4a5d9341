"""The verdicts of SpiderMonkey's validator of asm.js, by the shell js102."""
import pathlib
import re
import subprocess
import tempfile

SHELL = r"""
FILES.forEach((file, k) => {
  printErr(`text ${k}`);
  try {
    print(`${k} ${isAsmJSModule(evaluate(`var module = ${read(file)}\n;module`, { fileName: file, noScriptRval: false }))}`);
  } catch (error) {
    print(`${k} ${error}`);
  }
});
"""


def refusals(texts):
    """The number of each text that isn't accepted, with the reason."""
    with tempfile.TemporaryDirectory() as room:
        files = [f"{room}/{k}.js" for k in range(len(texts))]
        for file, text in zip(files, texts):
            pathlib.Path(file).write_bytes(text)
        script = pathlib.Path(room, "shell.js")
        script.write_text(SHELL.replace("FILES", str(files)))
        done = subprocess.run(["js102", "-w", script], stdout=subprocess.PIPE, stderr=subprocess.PIPE, timeout=300)
    verdicts = dict(line.split(" ", 1) for line in done.stdout.decode("latin1").splitlines())
    reasons = re.split(r"^text \d+$", done.stderr.decode("latin1"), flags=re.M)[1:]
    for k in range(len(texts)):
        if verdicts.get(str(k)) != "true":
            warned = [line for line in (reasons[k] if k < len(reasons) else "").splitlines() if "asm.js" in line]
            yield k, (warned or [verdicts.get(str(k), f"no verdict, status {done.returncode}")])[0]
