"""Judges modules on two workers of dask.distributed, one of which is killed: each file has the line that it has on one machine.

usage: many_machines.py EXAMPLE FOLDER

EXAMPLE is bindings/python/examples/on_many_machines.py. The package durskeyl is found as Python finds it.
"""
import importlib.util
import os
import signal
import subprocess
import sys
import tempfile
import time


def started(words, room):
    log = open(f"{room}/log", "ab")
    return subprocess.Popen([sys.executable, "-m", *words], stdout=log, stderr=log, cwd=room)


def appears(path):
    for _ in range(600):
        if os.path.exists(path):
            return
        time.sleep(0.1)
    sys.exit(f"many_machines: {path} did not come")


def judged(example, folder, address, worker):
    """The lines and the status of a run in which a worker is killed after the tenth file."""
    with subprocess.Popen([sys.executable, example, address, folder], stdout=subprocess.PIPE, stderr=subprocess.DEVNULL, text=True) as run:
        lines = []
        for line in run.stdout:
            lines.append(line.rstrip("\n"))
            if len(lines) == 10:
                worker.send_signal(signal.SIGKILL)
    return lines, run.returncode


def main():
    example, folder = map(os.path.abspath, sys.argv[1:])
    spec = importlib.util.spec_from_file_location("example", example)
    module = importlib.util.module_from_spec(spec)
    spec.loader.exec_module(module)
    wanted = [module.judge(os.path.join(folder, it)) for it in sorted(os.listdir(folder)) if it.endswith(".wasm")]
    with tempfile.TemporaryDirectory(prefix="machines-") as room:
        file = ["--scheduler-file", f"{room}/scheduler"]
        running = [started(["distributed.cli.dask_scheduler", "--host", "127.0.0.1", "--port", "0", "--no-dashboard", "--no-show", *file], room)]
        try:
            appears(file[1])
            running += [started(["distributed.cli.dask_worker", "--nthreads", "1", "--no-nanny", "--no-dashboard", *file], room) for _ in range(2)]
            from distributed import Client
            with Client(scheduler_file=file[1]) as client:
                client.wait_for_workers(2, timeout=60)
                address = client.scheduler.address
            lines, status = judged(example, folder, address, running[1])
        finally:
            for it in running:
                it.kill()
                it.wait()
    right = sorted(lines) == sorted(line for _, line in wanted) and status == max(it for it, _ in wanted)
    print(f"library: {len(lines)} files judged on two workers, one of which was killed" if right else f"many_machines: {len(lines)} lines, status {status}")
    return not right


if __name__ == "__main__":
    sys.exit(main())
