"""An input that is too long."""
import fcntl
import os
import subprocess
import sys
import tempfile
import termios

from common import answered, compare


def run(program):
    """A pipe that has more than an input may have: it is read to the first byte too many, and no further."""
    most, more = 2**30, 100
    with tempfile.TemporaryDirectory(prefix="tests-") as room:
        os.mkfifo(f"{room}/pipe")
        pipe = os.open(f"{room}/pipe", os.O_RDWR)
        with subprocess.Popen(["head", "-c", str(most + more), "/dev/zero"], stdout=pipe) as source:
            got = answered(program, ["pipe"], cwd=room)
            try:
                source.wait(timeout=10)
            except subprocess.TimeoutExpired:
                source.kill()
        left = int.from_bytes(fcntl.ioctl(pipe, termios.FIONREAD, bytes(4)), sys.byteorder)
        os.close(pipe)
    return compare("an input too long", [*got, f"{left} bytes left"], ["--", "wasm-check: pipe: too long", "2", f"{more - 1} bytes left"])
