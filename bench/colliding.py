"""Names that the hash maps' own hasher, which is fed no seed, puts into one place: `colliding_names.c` finds them. Without cc there are none."""
import atexit
import functools
import os
import shutil
import subprocess
import tempfile

# A map of 200,000 names has 2^15 places.
BITS = 15


@functools.lru_cache(maxsize=None)
def finder():
    """The program that finds them, or None where it can't be built."""
    if not shutil.which("cc"):
        return None
    folder = tempfile.mkdtemp()
    atexit.register(shutil.rmtree, folder)
    source = os.path.join(os.path.dirname(os.path.abspath(__file__)), "colliding_names.c")
    program = os.path.join(folder, "colliding_names")
    subprocess.run(["cc", "-O2", "-o", program, source], check=True)
    return program


@functools.lru_cache(maxsize=None)
def names(count):
    """So many names of eight letters each."""
    return subprocess.run([finder(), str(count), str(BITS)], check=True, stdout=subprocess.PIPE, text=True).stdout.split()
