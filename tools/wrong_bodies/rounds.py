"""Which wrong bodies share a check: those of which none touches what judges another."""

MOST = 40


def overlap(one, other):
    """Whether two edits change the same or neighbouring lines of a file."""
    for file in one.hunks.keys() & other.hunks.keys():
        for first, end, _ in one.hunks[file]:
            if any(a <= end and first <= b for a, b, _ in other.hunks[file]):
                return True
    return False


class Reach:
    """What the functions that judge edits call, and all that they lead to, each looked up once."""

    def __init__(self, sources):
        self.sources, self.calls, self.names = sources, {}, {}

    def is_touched(self, function, edit):
        """Whether what an edit changes may be why the function is refused."""
        key = function.path, function.first
        if key not in self.calls:
            self.calls[key] = self.sources.called_by(function)
        if any(it.key() == function.key() or it.name in self.calls[key] for it in edit.bodies):
            return True
        if edit.changes and key not in self.names:
            self.names[key] = self.sources.reached_from(function)
        return bool(edit.changes and edit.changes & self.names[key])

    def can_share(self, one, other):
        if {it.key() for it in one.judges} & {it.key() for it in other.judges}:
            return False
        if overlap(one, other) or any(self.is_touched(it, other) for it in one.judges):
            return False
        return not any(self.is_touched(it, one) for it in other.judges)


def rounds_of(edits, sources):
    """Lists of edits, each list for one check. Those with the most judges in common with others
    come first, so that few rounds are needed."""
    reach, many = Reach(sources), {}
    alone = [[it] for it in edits if it.is_alone()]
    for it in edits:
        for judge in it.judges:
            many[judge.key()] = many.get(judge.key(), 0) + 1
    shared = [it for it in edits if not it.is_alone()]
    shared.sort(key=lambda it: -max(many[judge.key()] for judge in it.judges))
    rounds = []
    for edit in shared:
        fitting = (
            it for it in rounds
            if len(it) < MOST and all(reach.can_share(edit, other) for other in it)
        )
        found = next(fitting, None)
        if found is None:
            rounds.append(found := [])
        found.append(edit)
    return rounds + alone
