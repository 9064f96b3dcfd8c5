"""Judges the modules below a folder on the workers of a dask.distributed cluster.

usage: on_many_machines.py SCHEDULER FOLDER

SCHEDULER is the address of a scheduler, for example tcp://host:8786. Each worker has the package durskeyl, and reads the files by their
names, so the folder is on a file system that all machines share. Writes a line for each file as its verdict comes, and to standard error how
many are done. A worker that is lost costs no verdict: another judges its files. Ends with 1 if a module is refused, with 2 if there is no
verdict on a file.
"""
import os
import sys

import durskeyl
from distributed import Client, as_completed


def judge(name):
    """The status of a file, and its line."""
    try:
        with open(name, "rb") as file:
            durskeyl.validate(file.read(), features="engines")
    except durskeyl.InvalidModule as fault:
        return 1, f"{durskeyl.shown(name)}: {fault}"
    except (MemoryError, ValueError, OSError) as error:
        return 2, f"{durskeyl.shown(name)}: no verdict: {error}"
    return 0, f"{durskeyl.shown(name)}: valid"


def told(name, future):
    """The same, of a file that a worker judged; no verdict, if each worker that had it was lost."""
    error = future.exception()
    return (2, f"{durskeyl.shown(name)}: no verdict: {type(error).__name__}") if error else future.result()


def main():
    if len(sys.argv) != 3:
        sys.exit(__doc__)
    names = [os.path.join(at, it) for at, _, files in os.walk(sys.argv[2]) for it in files if it.endswith(".wasm")]
    worst = 0
    with Client(sys.argv[1]) as client:
        named = {client.submit(judge, name, pure=False): name for name in sorted(names)}
        for count, future in enumerate(as_completed(named), 1):
            status, line = told(named[future], future)
            worst = max(worst, status)
            print(line, flush=True)
            print(f"{count} of {len(names)}", file=sys.stderr, flush=True)
    return worst


if __name__ == "__main__":
    sys.exit(main())
