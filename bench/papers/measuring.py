"""What an experiment is, how its lines are timed in alternation, and where `auto` is slower than another policy."""

from collections import defaultdict
from typing import Callable, NamedTuple

# The number of items in the papers, and ten and a hundred times that.
SIZES = [30_000, 300_000, 3_000_000]
# Some lines and places are left out in tables of at least this many rows.
HUNDREDFOLD = 1_000_000
ROUNDS = 5
# A line that has taken this many seconds in all is not repeated.
ENOUGH = 0.25
# Where `auto` takes more than this many times of the best policy, that is reported.
MOST_OF_THE_BEST = 1.2


class Experiment(NamedTuple):
    """An experiment: what its axes show, and a function that measures it and hands on each figure."""

    name: str
    title: str
    x: str
    y: str
    measure: Callable
    # The lines that `auto` could have taken over the same declared indexes, by the line of `auto`.
    rivals: dict = {}
    is_log_x: bool = True
    is_log_y: bool = True
    # Lines that the picture leaves out, as they are far from the others.
    not_drawn: tuple = ()


class Figures:
    """The figures of an experiment: for each panel and each place on the x axis, one for each line."""

    def __init__(self, experiment):
        self.experiment, self.panels = experiment, defaultdict(lambda: defaultdict(dict))

    def put(self, panel, x, measured):
        self.panels[panel][x].update(measured)
        told = ", ".join(f"{line} {number(value)}" for line, value in measured.items())
        print(f"{self.experiment.name:<11}{panel:>17} {x:>11,.10g}  {told}", flush=True)

    @property
    def lines(self):
        """The names of the lines, in the order in which they came."""
        return list(dict.fromkeys(line for places in self.panels.values() for at in places.values() for line in at))

    def places(self):
        """Each place with figures: its panel, its place on the x axis, and the figures by line."""
        for panel, by_place in self.panels.items():
            for x, measured in sorted(by_place.items()):
                yield panel, x, measured

    def curves(self):
        """The points of each line that is drawn, in each panel."""
        curves = {panel: defaultdict(list) for panel in self.panels}
        for panel, x, measured in self.places():
            for line in measured:
                if line not in self.experiment.not_drawn:
                    curves[panel][line].append((x, measured[line]))
        return curves

    def slow_choices(self):
        """Where `auto` takes over 1.2 times of the best policy: the line, the panel, the place, the rival and the times."""
        for line, rivals in self.experiment.rivals.items():
            for panel, x, measured in self.places():
                times = {rival: measured[line] / measured[rival] for rival in rivals if rival in measured and line in measured}
                rival = max(times, key=times.get, default=None)
                if rival and times[rival] > MOST_OF_THE_BEST:
                    yield line, panel, x, rival, times[rival]


def of_rows(size):
    """The name of a panel."""
    return f"{size:,} rows"


def number(value):
    """Three digits that count."""
    return f"{value:,.0f}" if value >= 100 else f"{value:.1f}" if value >= 10 else f"{value:.2f}" if value >= 1 else f"{value:.3f}"


def best(takes, factor=1.0):
    """The least seconds of each of these by name, times a factor. They alternate, and all must answer the same rows."""
    seconds, spent, answers = {}, defaultdict(float), set()
    for _ in range(ROUNDS):
        for name, take in takes.items():
            if spent[name] < ENOUGH:
                outcome = take()
                answers.add((outcome.rows, outcome.sum))
                spent[name] += outcome.seconds
                seconds[name] = min(seconds.get(name, outcome.seconds), outcome.seconds)
    if len(answers) != 1:
        raise SystemExit(f"bench/papers: {', '.join(takes)} answer {answers}")
    return {name: least * factor for name, least in seconds.items()}
