"""Curves between two scales of powers of ten: keys of a map from left to right, times upward."""
import math


class Plot:
    """A place for curves on a canvas. Each scale begins and ends at its two numbers; `inset` is the
    space between the edges and the first and the last number of keys."""

    def __init__(self, canvas, place, keys, times, inset):
        self.canvas = canvas
        self.left, self.right, self.upper, self.lower = place
        self.keys, self.times, self.inset = keys, times, inset

    def across(self, keys):
        """Where a number of keys stands."""
        low, high = map(math.log10, self.keys)
        part = (math.log10(keys) - low) / (high - low)
        return self.left + self.inset + part * (self.right - self.left - 2 * self.inset)

    def up(self, time):
        """Where a time stands."""
        low, high = map(math.log10, self.times)
        return self.lower - (math.log10(time) - low) / (high - low) * (self.lower - self.upper)

    def lines(self, steps):
        """The numbers of the upward scale: these multiples of powers of ten."""
        low, high = (round(math.log10(it)) for it in self.times)
        numbers = [step * 10 ** power for power in range(low, high + 1) for step in steps]
        return [it for it in numbers if it <= self.times[1]]

    def draw_times(self, steps=(1,)):
        """The upward scale, with a line for each of these multiples of each power of ten."""
        for time in self.lines(steps):
            y = self.up(time)
            style = "thin" if time == self.times[0] else "faint"
            self.canvas.line([(self.left, y), (self.right, y)], style)
            self.canvas.text(self.left - 12, y + 6, f"{time:,}", 17, "end")
        self.canvas.line([(self.left, self.upper), (self.left, self.lower)])

    def draw_keys(self, numbers, unit=1):
        """The scale of keys, with a label below each number: how many of this unit it is."""
        for keys in numbers:
            x = self.across(keys)
            self.canvas.line([(x, self.lower), (x, self.lower + 8)])
            self.canvas.text(x, self.lower + 30, f"{keys // unit:,}", 16, "middle")

    def draw_curve(self, points, look, size=7, joined=math.inf):
        """A curve through points, each a number of keys and a time. Neighbours are joined if one
        number of keys is at most `joined` times the other. Returns where the points stand."""
        (style, mark), points = look, list(points)
        places = [(self.across(keys), self.up(time)) for keys, time in points]
        runs = [places[:1]]
        for (before, _), (keys, _), place in zip(points, points[1:], places[1:]):
            if keys > joined * before:
                runs.append([])
            runs[-1].append(place)
        for run in runs:
            if len(run) > 1:
                self.canvas.line(run, style)
        for x, y in places:
            self.canvas.mark(x, y, mark, size, style)
        return places


def scale(numbers):
    """The powers of ten between which numbers lie."""
    return 10 ** math.floor(math.log10(min(numbers))), 10 ** math.ceil(math.log10(max(numbers)))


def apart(heights, space):
    """The nearest heights, in the same order, of which no two have less than this space between
    them: where labels of curves stand that end close to each other."""
    order = sorted(range(len(heights)), key=lambda it: heights[it])
    moved = list(heights)
    for _ in range(100):
        for above, below in zip(order, order[1:]):
            lack = space - (moved[below] - moved[above])
            if lack > 0.01:
                moved[above] -= lack / 2
                moved[below] += lack / 2
    return moved
