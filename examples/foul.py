#!/usr/bin/env python3
"""Says why points are fouls of Black: which run, which fours or which threes a stone there makes, and by which points.

    foul.py [--names] [--rule RULE] [--size N or W,H] [FILE [X,Y ..]]

FILE, or - for standard input, is a text that examples/position.py takes, or a table. Points that are named, as 7,7 or h8, are
explained whether or not they are fouls: so it says too why what looks like a three is none. Which points are fouls, and of which
kind, is what `renju foul` says of the position; the stones are found by the rule in README.md, and where the two should differ
the script says so and ends with status 1. --names writes points as players do.
"""
import argparse
import sys
from dataclasses import dataclass, field

sys.dont_write_bytecode = True

from boards import WAYS, Position, Wrong, bytes_of, named, run_through, saying, spelled
from position import points, rule_of, size_of, understood

AXES = dict(zip(WAYS, ("row", "column", "down", "up")))


@dataclass
class Four:
    """Four stones on an axis, and the points where one more makes five."""

    way: tuple
    stones: list
    points: list


@dataclass
class Three:
    """The stones on an axis that another stone makes a straight four of: by its point the kind of foul there, or None."""

    way: tuple
    stones: list
    points: dict = field(default_factory=dict)

    def holds(self):
        """Whether it is a three: a straight four is made at a point that is no foul."""
        return None in self.points.values()


@dataclass
class Judged:
    """The kind of foul that Black's stone makes, or None, and what it makes on the axes."""

    kind: object
    five: list = field(default_factory=list)
    overline: list = field(default_factory=list)
    fours: list = field(default_factory=list)
    threes: list = field(default_factory=list)


def black_run(position, stones, point, way):
    """The run of Black's stone that is put on a point."""
    return run_through({**stones, point: "black"}, point, way)


def is_empty(position, stones, point):
    return position.has(point) and point not in stones


def makes_five(position, stones, point, way):
    """Whether the point is empty, and Black's stone there makes a run of exactly five on the axis."""
    return is_empty(position, stones, point) and len(black_run(position, stones, point, way)) == 5


def fours_on(position, stones, point, way):
    """The fours of Black's stone on a point: each set of four stones that one more makes a run of exactly five."""
    found = {}
    for first in range(-4, 1):
        places = [(point[0] + step * way[0], point[1] + step * way[1]) for step in range(first, first + 5)]
        own = [place for place in places if stones.get(place) == "black"]
        left = [place for place in places if place not in own]
        if len(own) == 4 and makes_five(position, stones, left[0], way):
            found.setdefault(tuple(own), []).append(left[0])
    return [Four(way, list(own), points) for own, points in found.items()]


def ends(run, way):
    """The points before and behind a run."""
    (x, y), (far_x, far_y) = run[0], run[-1]
    return (x - way[0], y - way[1]), (far_x + way[0], far_y + way[1])


def three_on(position, stones, point, way):
    """What another stone makes a straight four of on the axis, or None: the stones of a three, and the kind of foul at each point."""
    found = None
    for step in (-3, -2, -1, 1, 2, 3):
        place = (point[0] + step * way[0], point[1] + step * way[1])
        if not is_empty(position, stones, place) or any(makes_five(position, stones, place, it) for it in WAYS):
            continue
        run = black_run(position, stones, place, way)
        with_place = {**stones, place: "black"}
        if len(run) == 4 and point in run and all(makes_five(position, with_place, it, way) for it in ends(run, way)):
            found = found or Three(way, [])
            found.stones += [it for it in run if it != place and it not in found.stones]
            found.points[place] = judged(position, stones, place).kind
    return found


def judged(position, stones, point):
    """What Black's stone on an empty point makes."""
    stones = {**stones, point: "black"}
    runs = [run_through(stones, point, way) for way in WAYS]
    fives = [run for run in runs if len(run) == 5]
    if fives:
        return Judged(None, five=fives[0])
    overlines = [run for run in runs if len(run) >= 6]
    if overlines:
        return Judged("overline", overline=overlines[0])
    fours = [four for way in WAYS for four in fours_on(position, stones, point, way)]
    if len(fours) >= 2:
        return Judged("double-four", fours=fours)
    threes = [three for three in (three_on(position, stones, point, way) for way in WAYS) if three]
    is_double = sum(three.holds() for three in threes) >= 2
    return Judged("double-three" if is_double else None, fours=fours, threes=threes)


def explained(position, point, fouls=None):
    """What Black's stone on an empty point makes, as `renju foul` and the rule say alike."""
    found = judged(position, position.stones(), point)
    told = (position.fouls() if fouls is None else fouls).get(point)
    if found.kind != told:
        raise Wrong(f"renju foul says {told or 'nothing'} of {spelled(point)}, and the rule as it stands here {found.kind or 'nothing'}")
    return found


def reasons(found, tell):
    """What a stone makes, in a line for each axis. `tell` writes points."""
    if found.five:
        yield f"a run of exactly five, which wins: {tell(found.five)}"
    if found.overline:
        yield f"a run of {len(found.overline)}: {tell(found.overline)}"
    for four in found.fours:
        yield f"a four in the {axis(four.way)}: {tell(four.stones)}, five at {either(four.points, tell)}"
    for three in found.threes:
        free = [point for point, kind in three.points.items() if kind is None]
        barred = ", ".join(f"{tell([point])} is {an(kind)} itself" for point, kind in three.points.items() if kind)
        if free:
            more = f"; {barred}" if barred else ""
            yield f"a three in the {axis(three.way)}: {tell(three.stones)}, a straight four at {either(free, tell)}{more}"
        else:
            yield f"no three in the {axis(three.way)}: {tell(three.stones)}, since {barred}"


def axis(way):
    """An axis in words: the row, the column, the diagonal down to the right or up to the right."""
    return {"down": "diagonal down", "up": "diagonal up"}.get(AXES[way], AXES[way])


def an(kind):
    return f"{'an' if kind == 'overline' else 'a'} {kind}"


def either(found, tell):
    return " or ".join(tell([point]) for point in found)


def explanation(position, point, found, has_names=True):
    """The lines that explain a point."""
    tell = lambda some: " ".join(named(it, position.height) if has_names else spelled(it) for it in some)
    yield f"{tell([point])} is {an(found.kind) if found.kind else 'no foul'}"
    for line in reasons(found, tell):
        yield f"  {line}"


def main():
    words = argparse.ArgumentParser(description=__doc__, formatter_class=argparse.RawDescriptionHelpFormatter)
    words.add_argument("--names", action="store_true", help="h8 for 7,7")
    words.add_argument("--rule", help="the rule of a text that says none"), words.add_argument("--size", help="its size")
    words.add_argument("file", nargs="?", metavar="FILE", help="a text, or - for standard input")
    words.add_argument("points", nargs="*", metavar="X,Y", help="points to explain")
    given = words.parse_args()
    position = understood(bytes_of(given.file), given.rule and rule_of(given.rule), given.size and size_of(given.size))
    if position.rule != "renju" or position.side() != "black":
        raise Wrong(f"fouls are Black's, on Black's turn under renju; the rule is {position.rule}, and {position.to_move()}")
    fouls = position.fouls()
    wanted = points(" ".join(given.points), position)
    for point in wanted:
        position.after(point)
    if not wanted:
        print(f"fouls {len(fouls)}")
    for point in wanted or fouls:
        print(*explanation(position, point, explained(position, point, fouls), given.names), sep="\n")


if __name__ == "__main__":
    saying(main)
