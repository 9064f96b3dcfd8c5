"""The kit's command `rt` for those who try edits, and what their calls took."""
import importlib.machinery
import importlib.util
import os
import resource
import shutil
import subprocess

ROOT = os.path.dirname(os.path.dirname(os.path.dirname(os.path.abspath(__file__))))


def load_rt():
    """The command `rt`, which asks each crate once what lies below it."""
    loader = importlib.machinery.SourceFileLoader("tools_kit", f"{ROOT}/tools/kit")
    kit = importlib.util.module_from_spec(importlib.util.spec_from_loader("tools_kit", loader))
    loader.exec_module(kit)
    rt = kit.load_rt()
    kit.ask_once(rt)
    return rt


def copied(held, over):
    """Copies what a check left into a new folder, which the next check may change."""
    shutil.copytree(held, over)


def is_proved(rt, crate, kept):
    """Whether the crate is proved as it is, over what the folder `kept` holds. What this check leaves is put there too."""
    words = [rt.rtlib.RATTLE, "check", *crate.words(["--jobs", "1"], keeps=False), "--incremental", kept]
    how = {"cwd": crate.folder, "stdin": subprocess.DEVNULL, "stdout": subprocess.DEVNULL, "stderr": subprocess.DEVNULL}
    return subprocess.run([*rt.rtlib.guarded(), *words], **how).returncode == 0


def spent():
    """The CPU seconds of the processes that have run so far."""
    used = resource.getrusage(resource.RUSAGE_CHILDREN)
    return used.ru_utime + used.ru_stime
