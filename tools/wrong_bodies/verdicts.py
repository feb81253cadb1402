"""What a check says of wrong bodies: of one by the crate's last line, of many each by the lines of
its own judges."""
import collections
import re

from kit import last_line, rt

BY_A_NAME = re.compile(
    r"(note: )?(\./)?proofs/.*"
    r"(has no field|is not in scope|has no `|was not admitted|can be named from here)"
)
PLACE = re.compile(r"(?:note: )?(?:\./)?((?:src|specs|proofs)/\S+?):(\d+):\d+:")
FUNCTION = re.compile(r"fn (\S+?)(?:<.*?>)?: (proved|not proved|no proof|could not tell)(.*)")
LEMMA = re.compile(r"(?:\./)?(?:specs|proofs)/\S+:\d+:\d+: error: `([^`]+)`: ")
WAITS = re.compile(r"it (?:calls|waits for) [^;]*")


def told(said):
    """The lines that say why a check refused a text, errors first."""
    lines = [it for it in said.split("\n") if re.match(r"(note: )?\S+:\d+:\d+:", it)]
    return [it for it in lines if ": error" in it or it.startswith("note: ")] or lines


def is_by_a_name(reasons):
    return bool(reasons) and all(map(BY_A_NAME.match, reasons))


def verdict(ran, texts):
    """Returns 'refused', or what is wrong with the edit that was checked alone."""
    if any(rt.unread(it, texts) for it in ran.stdout.split("\n")):
        return "BAD EDIT: the prover cannot read it"
    if ran.returncode == 0:
        return "NOT REFUSED"
    if not last_line(ran.stdout).startswith("logic=not-proved"):
        return f"BAD EDIT: it did not reach the prover: {last_line(ran.stdout)[:160]}"
    return "refused ONLY BY A NAME" if is_by_a_name(told(ran.stdout)) else "refused"


class Said:
    """What a check of several functions says: of each whether it is proved, and why not."""

    def __init__(self, output):
        self.lines = output.split("\n")
        self.is_whole = last_line(output).startswith("only=")
        self.states, self.reasons, self.loose = {}, collections.defaultdict(list), []
        notes = []
        for line in self.lines:
            found = FUNCTION.match(line)
            if found:
                self.states[found[1]] = found[2] + found[3]
                self.reasons[found[1]] += notes
                notes = []
            elif line.startswith("note: src/"):
                notes.append(line)
            elif PLACE.match(line) and ": error" in line:
                self.loose.append(line)

    def errors_in(self, folders):
        """The error lines of files below these folders."""
        return [it for it in self.loose if PLACE.match(it)[1].startswith(tuple(folders))]

    def lemmas_of(self, names):
        """The error lines of definitions and lemmas that have these names."""
        found = ((LEMMA.match(it), it) for it in self.loose)
        return [it for lemma, it in found if lemma and lemma[1] in names]

    def of(self, name, folders, reached):
        """Returns 'proved', 'waits', 'refused', 'by a name' or 'nothing' for one function, and
        the lines that say why. One that only waits for a function that it calls says nothing of
        its own body. `reached()` is all names that its proof leads to."""
        state = self.states.get(name)
        if state is None or state.startswith("could not tell"):
            return "nothing", []
        if state.startswith("proved"):
            return "proved", []
        reasons = self.reasons[name] + self.errors_in(folders)
        rest = re.sub(r"^(not proved|no proof)", "", state)
        if rest.strip(" :;") and not WAITS.sub("", rest).strip(" :;") and not reasons:
            return "waits", []
        if not reasons or is_by_a_name(reasons):
            reasons = self.lemmas_of(reached()) + reasons
        return "by a name" if not reasons or is_by_a_name(reasons) else "refused", reasons
