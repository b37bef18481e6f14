#!/usr/bin/env python3
"""Comments games: asks `fours` and `solve` at the last moves of both sides whether a win was there, has `check` accept each table, and
tells who won from where on, who missed a win, and where the loser held for the last time.

    games.py [--depth D] [--nodes N] [--last M] [--jobs J] [--rule RULE] [--size N or W,H] [--list] [--short] [--page FOLDER] FILE ..
    games.py --check | --write

A FILE has games as examples/judge.py takes them: a manager's log, game texts, a record of Piskvork, the moves of a game, or with
--list a game a line. --rule and --size go before those of the files. Of each game the last M moves of either side are asked, and
those before them for as long as the winner has a win. What it says is what the program finds within D moves and N positions: `no
win` is none by threats within these, and `undecided` that the positions were too few. --short leaves out what was found before
each move.

--page writes a page with a picture of each game into a folder, over such a page and its pictures at most. --check compares the
page and the pictures of examples/games, and --write writes them.
"""
import argparse
import os
import re
import sys
from concurrent.futures import ThreadPoolExecutor
from dataclasses import dataclass
from pathlib import Path

sys.dont_write_bytecode = True

from boards import SIDES, TOP, Wrong, answered, asked, named, number, other, read, saying, spelled, tell
from outputs import check, write
from pictures import picture, shown, words_of
from position import rule_of, size_of
from records import bytes_of, records_in

HERE = TOP / "examples" / "games"
# The games of the repository's page, and the depth, the positions and the last moves of either side that are asked.
GAMES = {"first": (9, 1_000_000, 7), "second": (5, 100_000, 8), "third": (5, 100_000, 6)}
MOST_ARRIVALS = 1_000_000_000_000
MOST_DEPTH, MOST_POSITIONS = 60, 10_000_000
SPENT, NONE = 5, 9
TITLE = "# Games, and where a win was there"


@dataclass(frozen=True)
class Limits:
    """How far the program is asked."""

    depth: int
    nodes: int


@dataclass(frozen=True)
class Found:
    """What was found at a position: the moves of a win and its way, whether fewer may do, and else whether a win is denied."""

    moves: int = 0
    way: str = ""
    may_be_fewer: bool = False
    is_denied: bool = False

    def words(self, depth):
        if self.moves:
            return f"a win in {self.moves} move{'' if self.moves == 1 else 's'} by {self.way}" + (", or in fewer" if self.may_be_fewer else "")
        return f"no win by threats within {depth} moves" if self.is_denied else "undecided"


class Game:
    """The positions of a game, its moves, and what `referee` says of it."""

    def __init__(self, record):
        self.name, self.moves, self.positions = record.name, record.moves, [record.first]
        self.verdict = asked(["referee"], record.text()).strip()
        for move in self.moves[: self.played()]:
            self.positions.append(self.positions[-1].after(move))
        self.winner = {f"{side} wins": side for side in SIDES}.get(record.end_of(self.verdict))

    def played(self):
        """How many moves were played as the rule has it, up to an end."""
        word, *rest = self.verdict.split()
        count = int(rest[-1])
        return count - 1 if word in ("illegal", "after", "foul") else count

    def side(self, move):
        """Who makes a move, counted from 1."""
        return self.positions[move - 1].side()

    def numbers(self):
        return range(1, len(self.positions))

    def spelled(self, move):
        return named(self.moves[move - 1], self.positions[0].height)


def solved(command, position, depth, nodes):
    """The number of moves of a win that is found and accepted, or the status of the program."""
    table, status = answered([command, depth, nodes], position.text())
    if status in (SPENT, NONE):
        return None, status
    if status != 0:
        raise Wrong(f"{command} ended with status {status}: {table.strip()}")
    moves = read(table.encode()).moves
    told, _ = answered(["check", MOST_ARRIVALS], table)
    if not told.startswith(f"accepted in {moves} moves, "):
        raise Wrong(f"the table of a win within {moves} moves is not accepted: {told.strip()}")
    return moves, 0


def find(position, limits):
    """The win with the fewest moves that is found."""
    moves, status = solved("fours", position, limits.depth, limits.nodes)
    found, below = Found(moves, "fours") if moves else Found(is_denied=status == NONE), NONE
    most = moves - 1 if moves else limits.depth
    while most:
        shorter, below = solved("solve", position, most, limits.nodes)
        if not shorter:
            break
        found, most = Found(shorter, "threats"), shorter - 1
    if found.moves:
        return Found(found.moves, found.way, may_be_fewer=below == SPENT)
    return Found(is_denied=below == NONE)


class Story:
    """What was found before the last moves of a game."""

    def __init__(self, game, limits, last, pool):
        self.game, self.limits = game, limits
        numbers = game.numbers()[max(len(game.numbers()) - 2 * last, 0) :]
        self.found = dict(zip(numbers, pool.map(self.find, numbers)))
        # As long as the winner has a win at the first of its moves that was asked, the one before it is asked too.
        first = next((move for move in numbers if game.side(move) == game.winner), 0)
        while first > 2 and self.found[first].moves:
            first -= 2
            self.found[first] = self.find(first)
        self.found = dict(sorted(self.found.items()))

    def find(self, move):
        return find(self.game.positions[move - 1], self.limits)

    def has_win(self, move):
        return move in self.found and self.found[move].moves > 0

    def won_from(self):
        """The winner's first move of those before each of which it has a win, up to the end, or 0."""
        move = max((move for move in self.found if self.game.side(move) == self.game.winner), default=0)
        while self.has_win(move - 2):
            move -= 2
        return move if self.has_win(move) else 0

    def missed(self):
        """The moves before which a side has a win, and has none before its next one, or none any more."""
        for move in self.found:
            is_last = move == len(self.game.positions) - 1 and self.game.side(move) == self.game.winner
            if self.has_win(move) and not is_last and not self.has_win(move + 2):
                yield move

    def is_doubtful(self, move):
        """Whether the positions were too few to say that the side has no win before its next move."""
        later = self.found.get(move + 2)
        return later is not None and not later.is_denied

    def comments(self):
        for move, found in self.found.items():
            yield f"before move {move}, {self.game.spelled(move)}, {self.game.side(move).capitalize()} has {found.words(self.limits.depth)}"

    def lines(self):
        """The story in sentences."""
        first = self.won_from()
        if first:
            found = self.found[first]
            yield f"{self.game.winner.capitalize()} won from move {first} on, with {found.words(self.limits.depth)}"
            yield from self.held(first)
        for move in self.missed():
            doubt = f" (undecided at {move + 2})" if self.is_doubtful(move) else ""
            yield f"{self.game.side(move).capitalize()} missed {self.found[move].words(self.limits.depth)} at move {move}, with {self.game.spelled(move)}{doubt}"

    def held(self, first):
        """Where the loser held for the last time, as far as it is known."""
        loser, before = other(self.game.winner).capitalize(), self.found.get(first - 2)
        if first - 1 in self.game.numbers() and before and before.is_denied:
            yield f"{loser} held last after move {first - 3 if first > 3 else 0}, and no more after its move {first - 1}, {self.game.spelled(first - 1)}"
        elif before and not before.moves:
            yield f"whether {loser} still held after move {first - 3} is undecided"


def games_of(file, *how):
    """The games of a file, each named by it."""
    path = Path(file)
    records = records_in(bytes_of(file), *how)
    for record in records:
        record.name = path.name if len(records) == 1 else f"{path.name} {record.name}"
        yield Game(record)


def picture_of(game):
    """The name of the picture of a game, and what the picture says that it shows."""
    return re.sub(r"\.txt$", "", game.name).replace(" ", "-") + ".svg", f"games.py {game.name}"


def section(story):
    """The part of a page that is about one game, and its picture or nothing."""
    game, first = story.game, story.won_from()
    picture_name, of = picture_of(game)
    end = f"{game.winner.capitalize()} wins at move {len(game.positions) - 1}" if game.winner else f"`{game.verdict}`"
    parts, drawn = [f"## `{game.name}`: {end}"], None
    if first:
        moves = " ".join(map(spelled, game.moves[first - 1 : len(game.positions) - 1]))
        drawn = picture(game.positions[first - 1], words_of(["--play", moves]), of)
        parts.append(f'<img src="{picture_name}" width="480" alt="The board of {game.name}, with the moves from {first} on as stones numbered from 1">')
        parts.append(f"The numbered stones are the moves from {first} on.")
    parts.append("\n".join(f"- {line}." for line in story.lines()) or "- No win was found in its last moves.")
    limits = story.limits
    rows = [f"| {move} | {game.side(move).capitalize()} | {found.words(limits.depth)} | {game.spelled(move)} |" for move, found in story.found.items()]
    parts.append("\n".join([f"| Move | Side | Before it, `solve {limits.depth} {limits.nodes}` | Played |", "|---|---|---|---|", *rows]))
    parts.append(f"`referee` says of the whole game: `{game.verdict}`.")
    return parts, drawn


def summary(stories):
    """A line for each game of a page: how it ended, from which move on the winner had a win, and who missed one at which moves."""
    rows = ["| Game | Its end | A win by threats from move | A win was missed |", "|---|---|---|---|"]
    for story in stories:
        missed = ", ".join(f"by {story.game.side(move).capitalize()} at {move}{'?' if story.is_doubtful(move) else ''}" for move in story.missed())
        rows.append(f"| `{story.game.name}` | `{story.game.verdict}` | {story.won_from() or ''} | {missed} |")
    return "\n".join(rows)


def page(head, stories):
    """A page, and its pictures by their names."""
    parts, pictures = [TITLE, head, *([summary(stories)] if stories[1:] else [])], {}
    for story in stories:
        name, _ = picture_of(story.game)
        told, drawn = section(story)
        parts += told
        if drawn:
            if name in pictures:
                raise Wrong(f"two games would have the picture {name}: name one of their files otherwise")
            pictures[name] = drawn
    return {"README.md": "\n\n".join(parts) + "\n", **pictures}


HEAD = (
    "Three games that a program, BSD gomoku, played against itself: freestyle, 19 by 19, from openings that were drawn. Before each of the last moves "
    "`fours` and `solve` were asked for a win, `solve` with its depth lowered until there was none, each table was accepted by `check`, and the whole "
    "game was judged by `referee`. `examples/games.py --write` writes this page, and `examples/games.py --depth 8 --nodes 100000 --page FOLDER FILE` one of "
    "any other games."
)
HEAD_OF_USER = "Before each of the last moves `fours` and `solve` were asked for a win, each table was accepted by `check`, and the whole game was judged by `referee`."


def of_repository(pool, writes):
    """Writes the repository's page and pictures, or compares them."""
    stories = []
    for name, (depth, nodes, last) in GAMES.items():
        (game,) = games_of(HERE / f"{name}.txt")
        stories.append(Story(game, Limits(depth, nodes), last, pool))
    failed = 0
    for name, wanted in page(HEAD, stories).items():
        path = HERE / name
        if writes:
            path.write_text(wanted)
        elif not path.exists() or path.read_text() != wanted:
            print(f"FAILED {path.relative_to(TOP)}: it isn't what examples/games.py writes; run it with --write")
            failed = 1
    return failed


def is_page(there):
    return there.startswith(f"{TITLE}\n")


def is_picture(of):
    """Whether what a file holds is the picture of a game, which may be drawn again."""
    return lambda there: there.split("\n", 1)[0].endswith(f"{shown(of)}>")


PAGE_HINT, PICTURE_HINT = "it is no page of games: name another folder", "it is no picture of this game: name another folder"


def check_folder(folder):
    """A folder whose README.md is no page of games is left as it is."""
    if Path(folder).exists() and not Path(folder).is_dir():
        raise Wrong(f"{folder} is no folder")
    check(Path(folder, "README.md"), is_page, PAGE_HINT)


def write_page(folder, stories):
    """Writes a page of a user's games."""
    written = page(HEAD_OF_USER, stories)
    try:
        Path(folder).mkdir(parents=True, exist_ok=True)
    except OSError as error:
        raise Wrong(f"{folder} cannot be written: {error.strerror}")
    write(Path(folder, "README.md"), written.pop("README.md"), is_page, PAGE_HINT)
    of = dict(picture_of(story.game) for story in stories)
    for name, drawn in written.items():
        write(Path(folder, name), drawn, is_picture(of[name]), PICTURE_HINT)


def told_of(game, given, pool):
    """Prints what is told of a game, and gives its story."""
    if given.page:
        # It is known before the long work whether its picture may be drawn.
        name, of = picture_of(game)
        check(Path(given.page, name), is_picture(of), PICTURE_HINT)
    story = Story(game, Limits(given.depth, given.nodes), given.last, pool)
    for line in [*([] if given.short else story.comments()), *story.lines(), f"the referee says {game.verdict}"]:
        print(f"{game.name}: {line}", flush=True)
    return story


def told(file, given, pool):
    """Prints what is told of the games of a file, and gives their stories. What is no game is told, and the others go on."""
    how = given.rule and rule_of(given.rule), given.size and size_of(given.size), "", None, given.list
    stories, wrongs = [], []
    try:
        for game in games_of(file, *how):
            try:
                stories.append(told_of(game, given, pool))
            except Wrong as error:
                wrongs.append(f"{game.name}: {error}")
                tell(f"games.py: {wrongs[-1]}")
    except Wrong as error:
        wrongs.append(error)
        tell(f"games.py: {file}: {error}")
    return stories, 1 if wrongs else 0


def words_given():
    words = argparse.ArgumentParser(description=__doc__, formatter_class=argparse.RawDescriptionHelpFormatter)
    words.add_argument("--check", action="store_true"), words.add_argument("--write", action="store_true")
    words.add_argument("--rule", help="the rule of all games"), words.add_argument("--size", help="their size")
    words.add_argument("--list", action="store_true", help="each line is a game")
    words.add_argument("--short", action="store_true", help="the story alone")
    words.add_argument("--page", metavar="FOLDER"), words.add_argument("files", nargs="*", metavar="FILE")
    for name, value, most in (("depth", 8, MOST_DEPTH), ("nodes", 100_000, MOST_POSITIONS), ("last", 8, 1024), ("jobs", os.cpu_count() or 1, 1024)):
        words.add_argument(f"--{name}", default=str(value), type=lambda word, most=most, name=name: number(word, 1, most, f"the numbers of --{name}"))
    given = words.parse_args()
    if bool(given.files) == (given.check or given.write) or given.check and given.write:
        raise Wrong("name games, or say --check or --write for those of this repository")
    return given


def main():
    given = words_given()
    if given.page:
        check_folder(given.page)
    with ThreadPoolExecutor(given.jobs) as pool:
        if not given.files:
            return of_repository(pool, given.write)
        all_stories, all_failed = [], 0
        for file in given.files:
            stories, failed = told(file, given, pool)
            all_stories, all_failed = all_stories + stories, all_failed or failed
    if given.page:
        write_page(given.page, all_stories)
    return all_failed


if __name__ == "__main__":
    saying(main)
