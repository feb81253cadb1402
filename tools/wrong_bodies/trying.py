"""Tries the wrong bodies of a crate, many in each check."""
import collections
import functools
import os
import shutil
import subprocess
import sys
from concurrent.futures import FIRST_COMPLETED, ProcessPoolExecutor, wait
from multiprocessing import get_context

from kit import kept_work, rt, seconds
from wrong_bodies.edits import Edit
from wrong_bodies.rounds import rounds_of
from wrong_bodies.sources import Sources, read
from wrong_bodies.verdicts import PLACE, FUNCTION, Said, told, verdict

Tried = collections.namedtuple("Tried", "verdict reasons seconds together")


def joined(edits, folder):
    """The files that edits change, with all their changes, and where each edit's lines then stand:
    (file, first, end, edit)."""
    texts, places = {}, []
    for file in sorted({it for edit in edits for it in edit.hunks}):
        lines, made, at = read(f"{folder}/{file}").split("\n"), [], 0
        hunks = [(*hunk, edit) for edit in edits for hunk in edit.hunks.get(file, [])]
        for first, end, new, edit in sorted(hunks, key=lambda it: it[:2]):
            made += lines[at:first]
            places.append((file, len(made), len(made) + len(new), edit))
            made, at = made + new, end
        texts[file] = "\n".join(made + lines[at:])
    return texts, places


def nearest(file, line, places):
    """The edit whose lines in a file are nearest to this one, or None."""
    near = [
        (max(first - line, line - end, 0), number)
        for number, (path, first, end, _) in enumerate(places) if path == file
    ]
    return places[min(near)[1]][3] if near else None


class Trial:
    """A crate whose wrong bodies are tried: over `kept`, which has the crate as it is."""

    def __init__(self, crate, say):
        self.crate, self.say = crate, say
        self.kept, self.names, self.edits = kept_work(crate.name, "edits"), set(), []
        self.sources = Sources(crate.folder)

    def check(self, texts, flags=()):
        """A check with these texts, over a copy of the kept work: what a wrong body leaves there
        would be checked again for the next one. The copy has hard links, since a check writes each
        file anew, and then gives it the old one's name."""
        copy = f"{self.kept}-{os.getpid()}"
        shutil.rmtree(copy, ignore_errors=True)
        subprocess.run(["cp", "-al", self.kept, copy], check=True)
        try:
            return rt.checked(self.crate, texts, ["--jobs", "1", *flags], copy)
        finally:
            shutil.rmtree(copy, ignore_errors=True)

    def begin(self):
        """Checks the crate as it is, and notes the names that its functions have."""
        work, before = f"{self.crate.folder}/out/incremental", seconds()
        # some versions of the kit take over what a check in another clone kept
        if hasattr(rt, "adopt"):
            rt.adopt(self.crate, False)
        if os.path.isdir(work) and not os.path.isdir(self.kept):
            subprocess.run(["cp", "-al", work, self.kept], check=True)
        os.makedirs(self.kept, exist_ok=True)
        ran = rt.checked(self.crate, {}, ["--jobs", "1"], self.kept)
        if ran.returncode:
            sys.exit(f"{self.crate.name} is not proved:\n" + "\n".join(told(ran.stdout)[:20]))
        found = filter(None, map(FUNCTION.match, ran.stdout.split("\n")))
        self.names = {it[1] for it in found}
        self.say(f"{seconds() - before:6.1f} s  {self.crate.name} itself")

    def name_of(self, function):
        """The name that a check prints of a function, or None. A method stands under its type,
        which may be of another module."""
        ending = "::".join(filter(None, [function.owner, function.name]))
        found = [it for it in self.names if it.endswith(f"::{ending}")]
        module = function.path[len("src/") : -len(".rt")].removesuffix("/mod").replace("/", "::")
        module = "" if module in ("lib", "main") else f"{module}::"
        exact = [it for it in found if it == f"{self.crate.name}::{module}{ending}"]
        found = exact or (found if function.owner else [])
        return found[0] if len(found) == 1 else None

    @staticmethod
    def folders_of(function, name):
        """Where the proof files of a function stand; those of a cycle stand under its name."""
        path = "/".join(name.split("::")[1:])
        if not function.cycle:
            return [f"proofs/{path}/"]
        above = [f"{os.path.dirname(path)}/", ""]
        return [f"proofs/{path}/", *(f"proofs/{it}+{function.cycle}/" for it in above)]

    def state_of(self, function, said):
        """What a check says of a function, and why."""
        name = self.name_of(function)
        reached = functools.partial(self.sources.reached_from, function)
        return said.of(name, self.folders_of(function, name), reached)

    def alone(self, edit):
        """Tries one wrong body as the gate does."""
        before = seconds()
        if edit.why:
            return Tried(f"BAD EDIT: {edit.why}", [], 0, 1)
        ran = self.check(edit.texts)
        reasons = told(ran.stdout)
        return Tried(verdict(ran, edit.texts), reasons, seconds() - before, 1)

    def together(self, edits):
        """Tries wrong bodies in one check. Returns what was found of each, and the lists of those
        to try again: what cannot be compiled is told by its place, or else found by halves."""
        before = seconds()
        texts, places = joined(edits, self.crate.folder)
        names = [self.name_of(it) for edit in edits for it in edit.judges]
        ran = self.check(texts, [word for it in names for word in ("--only", it.split("::", 1)[1])])
        said, used = Said(ran.stdout), seconds() - before
        unread = [it for it in said.lines if rt.unread(it, texts)]
        if not said.is_whole or unread:
            return {}, self.split(edits, places, unread or told(ran.stdout)), used
        found, again = {}, []
        for edit in edits:
            states = [self.state_of(it, said) for it in edit.judges]
            refused = [reasons for state, reasons in states if state == "refused"]
            if refused:
                found[edit] = Tried("refused", refused[0], used / len(edits), len(edits))
            elif len(edits) > 1 and any(state == "waits" for state, _ in states):
                again.append(edit)
            else:
                found[edit] = self.alone(edit)
        return found, [again] if again else [], used

    def split(self, edits, places, lines):
        """The rounds in which to try edits again that made a text which cannot be read."""
        blamed = []
        for place in filter(None, map(PLACE.match, lines)):
            edit = nearest(place[1], int(place[2]) - 1, places)
            if edit is not None and edit not in blamed:
                blamed.append(edit)
        if blamed and len(blamed) < len(edits):
            return [[it for it in edits if it not in blamed]] + [[it] for it in blamed]
        half = len(edits) // 2
        return [edits[:half], edits[half:]]

    def try_round(self, group):
        """Tries the edits with these numbers. Returns what was found, by number, the rounds in
        which others have to be tried again, and the processor seconds of the check."""
        before, edits = seconds(), [self.edits[it] for it in group]
        numbers = {edit: it for edit, it in zip(edits, group)}
        if len(edits) == 1 and (edits[0].why or edits[0].is_alone()):
            return {group[0]: self.alone(edits[0])}, [], 0
        found, again, used = self.together(edits)
        if len(edits) == 1 and not found:
            return {group[0]: self.alone(edits[0])}, [], seconds() - before
        found = {numbers[edit]: tried for edit, tried in found.items()}
        return found, [[numbers[it] for it in part] for part in again if part], used

    def run(self, paths, show, lanes=1):
        """Tries these wrong bodies of the crate, so many rounds side by side. `show` gets each with
        what was found of it."""
        self.edits = [Edit(it, self.sources) for it in paths]
        for edit in self.edits:
            if any(self.name_of(it) is None for it in edit.judges):
                edit.judges = []
        numbers = {edit: it for it, edit in enumerate(self.edits)}
        rounds = rounds_of([it for it in self.edits if not it.why], self.sources)
        rounds += [[it] for it in self.edits if it.why]
        globals()["TRIAL"] = self
        with ProcessPoolExecutor(lanes, get_context("fork")) as pool:
            waiting = {pool.submit(work, [numbers[it] for it in part]) for part in rounds}
            while waiting:
                done, waiting = wait(waiting, return_when=FIRST_COMPLETED)
                for found, again, used in (it.result() for it in done):
                    self.say(f"{used:6.1f} s  {len(found)} together")
                    for number, tried in sorted(found.items()):
                        show(self.edits[number], tried)
                    waiting |= {pool.submit(work, part) for part in again}


TRIAL = None


def work(group):
    """A round of the crate that is tried, in a process of its own."""
    return TRIAL.try_round(group)
