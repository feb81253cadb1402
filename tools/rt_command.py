"""The toolchain's command `rt` as a module, so that tools judge by the gate's own code."""
import functools
import importlib.machinery
import importlib.util
import os
import shutil


def load():
    """Loads the command, without running it."""
    path = os.path.realpath(shutil.which("rt"))
    loader = importlib.machinery.SourceFileLoader("rt_command", path)
    module = importlib.util.module_from_spec(importlib.util.spec_from_loader("rt_command", loader))
    loader.exec_module(module)
    return module


def remember_stamps(rt):
    """Has each crate work out the sum of its texts once: `rt` does so anew for each way that leads
    down to it from a crate above, which takes a minute at the top."""
    if not hasattr(rt.rtlib.Crate.stamp, "cache_info"):
        rt.rtlib.Crate.stamp = functools.lru_cache(maxsize=None)(rt.rtlib.Crate.stamp)
