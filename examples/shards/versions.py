"""The versions of a map at checkpoints: kept in one process, and asked for by others.

A process keeps the version of a checkpoint until that of the next is published, so two readers take
turns. Questions come over a Unix socket, one a connection.
"""
import contextlib
import multiprocessing.connection
import os
import threading

AWAY = (FileNotFoundError, ConnectionError, EOFError)


class Versions:
    """The versions of a map that are kept. `takes` are a call of each of two readers: a context
    with the current version."""

    def __init__(self, takes):
        self.takes, self.kept, self.lock = takes, {}, threading.Lock()

    def keep(self, checkpoint):
        """Keeps the current version as that of a checkpoint, and returns it."""
        with self.lock:
            end = contextlib.ExitStack()
            then = end.enter_context(self.takes[checkpoint % 2]())
            self.kept[checkpoint] = then, end
            return then

    def let_go_before(self, checkpoint):
        """Keeps no more the versions of all checkpoints before this one."""
        with self.lock:
            for older in [it for it in self.kept if it < checkpoint]:
                _, end = self.kept.pop(older)
                end.close()

    def answer(self, checkpoint, key):
        """The key's value or None, and its proof, at a checkpoint; None if that is not kept."""
        with self.lock:
            if checkpoint not in self.kept:
                return None
            then, _ = self.kept[checkpoint]
            return then.get(key), then.prove(key)

    def serve(self, path):
        """Answers questions at this path, on a thread, as long as the process runs."""
        # One that was killed has left its socket.
        with contextlib.suppress(FileNotFoundError):
            os.unlink(path)
        listener = multiprocessing.connection.Listener(path, backlog=64)
        threading.Thread(target=self._answer_all, args=(listener,), daemon=True).start()

    def _answer_all(self, listener):
        while True:
            with contextlib.suppress(*AWAY), listener.accept() as asked:
                asked.send(self.answer(*asked.recv()))


def ask(path, *question):
    """What the process at this path answers to a checkpoint and a key; None too while no process is
    there."""
    with contextlib.suppress(*AWAY), multiprocessing.connection.Client(path) as other:
        other.send(question)
        return other.recv()
    return None
