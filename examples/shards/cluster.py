"""The processes of the map: the gatherer, the auditor and the workers."""
import os
import subprocess
import sys

import checkpoints
import splits

here = os.path.dirname(os.path.abspath(__file__))


class Cluster:
    """The processes that run, by their names. Those that still do are killed with the context."""

    def __init__(self, client, port, folder, format, rows):
        self.client, self.format, self.rows = client, format, rows
        self.where, self.running = (str(port), folder), {}

    def __enter__(self):
        self._start("gatherer", "gatherer.py", *self.where)
        self._start("auditor", "auditor.py", *self.where)
        for number in range(splits.WORKERS):
            self.start_worker(number)
        return self

    def __exit__(self, *_):
        for one in self.running.values():
            one.kill()
            one.wait()

    def _start(self, name, script, *words):
        program = [sys.executable, "-B", os.path.join(here, script), "--format", str(self.format)]
        self.running[name] = subprocess.Popen([*program, *words])

    def start_worker(self, number):
        words = ["--rows", str(self.rows), *self.where, str(number)]
        self._start(f"worker {number}", "worker.py", *words)

    def kill_worker(self, number):
        """Kills a worker as nothing can prevent, and waits for its end."""
        killed = self.running.pop(f"worker {number}")
        killed.kill()
        killed.wait()

    def until(self, look):
        """What `look` finds, as soon as that is not None, while all processes run."""

        def while_all_run():
            ended = [name for name, one in self.running.items() if one.poll() is not None]
            if ended:
                raise RuntimeError(f"{', '.join(ended)} ended too early")
            return look()

        return checkpoints.until(self.client, while_all_run)

    def peaks(self):
        """The most memory that each process has had in use so far, in MiB, where the system tells
        it."""
        return {name: peak(one.pid) for name, one in self.running.items()}

    def end(self):
        """Has all processes end. Returns their statuses."""
        checkpoints.end(self.client)
        return [one.wait(60) for one in self.running.values()]


def peak(pid):
    with open(f"/proc/{pid}/status") as status:
        said = dict(line.split(":", 1) for line in status)
    return int(said["VmHWM"].split()[0]) // 1024
