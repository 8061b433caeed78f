"""Runs the program with calls that fail (`faults.c`), several runs at a time."""

import concurrent.futures
import os
import subprocess
import sys
import tempfile

PROGRAM = "crates/gcplay/out/gcplay"
BOUND = int(os.environ.get("BOUND", "120"))


def library():
    """Builds the library of `faults.c` in a folder of its own."""
    built = os.path.join(tempfile.mkdtemp(prefix="faults."), "faults.so")
    source = os.path.join(os.path.dirname(os.path.abspath(__file__)), "faults.c")
    subprocess.run([os.environ.get("CC", "cc"), "-O2", "-shared", "-fPIC", "-o", built, source, "-ldl"], check=True)
    return built


def program():
    return os.path.abspath(sys.argv[1] if len(sys.argv) > 1 else PROGRAM)


class Disturbed:
    """The program under the library."""

    def __init__(self):
        self.program = program()
        self.library = library()

    def answer(self, words, source, **faults):
        """The status, the text, and whether a call was made to fail. A play that doesn't end has no status."""
        status, text, told = self.told(words, source, **faults)
        return status, text, b"x" in told

    def told(self, words, source, **faults):
        """The status, the text, and what was told: an x for each call that was made to fail, and a t for each thread that was started."""
        told, tell = os.pipe()
        environment = {name.upper(): str(value) for name, value in faults.items()}
        environment.update(LD_PRELOAD=self.library, TOLD=str(tell))
        try:
            done = subprocess.run([self.program] + words, input=source, stdout=subprocess.PIPE, env=environment, pass_fds=(tell,), timeout=BOUND)
            status, text = done.returncode, done.stdout
        except subprocess.TimeoutExpired:
            status, text = None, b""
        finally:
            os.close(tell)
        with os.fdopen(told, "rb") as said:
            return status, text, said.read()


def each(work, items):
    """Does the work for each item, eight at a time; the answers come in order."""
    with concurrent.futures.ThreadPoolExecutor(8) as pool:
        return list(pool.map(work, items))
