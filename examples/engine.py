"""What the examples with a Redis server share: how they find it, and how they count facts."""
import os
import shutil
import subprocess
import sys

DEBIAN = "/usr/bin/python3"
HAS_REDIS = [DEBIAN, "-c", "import redis"]
results = []


def find():
    """Leaves the example out where the engine or its module is not there; goes on with Debian's
    Python where that has the module."""
    if not shutil.which("redis-server"):
        sys.exit(leave_out("redis-server"))
    try:
        __import__("redis")
    except ImportError:
        has = sys.executable != DEBIAN and os.path.exists(DEBIAN)
        if not has or subprocess.run(HAS_REDIS, stderr=subprocess.DEVNULL).returncode:
            sys.exit(leave_out("Python's module redis"))
        os.execv(DEBIAN, [DEBIAN, *sys.argv])


def leave_out(what):
    print(f"left out: there is no {what} (Debian: apt install redis-server python3-redis)")
    print("0 passed, 0 failed")
    return 0


def expect(name, holds):
    """Counts one fact that has to hold."""
    results.append(bool(holds))
    print(f"{'passed' if holds else 'FAILED'}: {name}", flush=True)


def end():
    """Writes how many facts held. Returns the status of the example."""
    print(f"{sum(results)} passed, {len(results) - sum(results)} failed")
    return 0 if all(results) else 1
