"""A drill made anew from what docs/FORMATS.md says of it, with other commands of the program: its positions by the formula, `fours`
for their wins, `check` for the tables, `brain` with a file for the games, and `referee` with that file for what became of them."""
import sys
import tempfile
from pathlib import Path

sys.path.insert(0, str(Path(__file__).resolve().parent.parent / "examples"))
from boards import Position, game_text, numbers, spelled
from brains import RULE_NUMBERS, Brain

POSITIONS, DRAWS, STONES, SIDE = 60, 120, 30, 15
ARRIVALS = "2000000"


class Numbers:
    """The numbers that are drawn."""

    def __init__(self, seed):
        self.state = seed

    def draw(self):
        self.state = (self.state * 6364136223846793005 + 1442695040888963407) % 2**64
        return self.state // 2**33


class Drill:
    """The counts of a drill, and what was wrong with its games. `run` runs the program with words over a text."""

    def __init__(self, program, run):
        self.program, self.run, self.wrong = program, run, []
        self.found = {0: 0, 9: 0, 5: 0}
        self.accepted = self.games = self.moves = 0

    def of(self, number):
        """The five lines of the drill of this number."""
        drawn = Numbers(number)
        for place in range(POSITIONS):
            position = self.made(drawn, list(RULE_NUMBERS)[place % 3])
            found = self.run(["fours", "6", "2000"], position.text())
            self.found[found.returncode] += 1
            if found.returncode == 0:
                self.win(place, position, found.stdout.decode(), drawn)
        wins, none, spent = self.found.values()
        told = [f"wins {wins} none {none} spent {spent}", f"accepted {self.accepted}", f"games {self.games} moves {self.moves}"]
        return "".join(f"{line}\n" for line in [f"drill {number}", f"positions {POSITIONS}", *told])

    def made(self, drawn, rule):
        """A position: the first draws that name points at which a move goes on."""
        position = Position(rule, SIDE, SIDE)
        for _ in range(DRAWS):
            k = drawn.draw() % 81
            point = (3 + k % 9, 3 + k // 9)
            if len(position.stones()) < STONES and self.goes_on(position, point):
                position = position.after(point)
        return position

    def goes_on(self, position, point):
        """Whether a move is on an empty point, is no foul and doesn't win. So few stones fill no board."""
        if point in position.stones() or position.after(point).won_at():
            return False
        if position.rule != "renju" or position.side() == "white":
            return True
        fouls = self.run(["foul"], position.text()).stdout.decode()
        return f"foul {spelled(point)} " not in fouls

    def tables(self, number):
        """The tables of the wins of the drill of this number."""
        drawn = Numbers(number)
        for place in range(POSITIONS):
            found = self.run(["fours", "6", "2000"], self.made(drawn, list(RULE_NUMBERS)[place % 3]).text())
            if found.returncode == 0:
                yield found.stdout.decode()

    def win(self, place, position, table, drawn):
        """Has the table of a win accepted, plays a game by it, and replays the game."""
        self.accepted += self.run(["check", ARRIVALS], table).returncode == 0
        with tempfile.NamedTemporaryFile("w") as file:
            file.write(table), file.flush()
            moves, end = self.played(position, file.name, drawn)
            self.games += end == "won"
            self.moves += (len(moves) + 1) // 2
            verdict = self.run(["referee", file.name], game_text(position, moves)).stdout.decode()
        side, other = ("black", "white") if position.side() == "black" else ("white", "black")
        kinds = ("overline", "double-four", "double-three") if other == "black" else ()
        wanted = [f"won {side} {len(moves)}"] if len(moves) % 2 else [f"foul {kind} {len(moves)}" for kind in kinds]
        if end != "won" or verdict not in [f"{each}\ntable follows\n" for each in wanted]:
            self.wrong.append(f"position {place}: the game {' '.join(map(spelled, moves))} ends so: {end}; the referee says {verdict!r}")

    def played(self, position, file, drawn):
        """The moves of a game of a brain that holds the table, and how it ended."""
        brain, own, moves = Brain([self.program, "brain", file]), position.side(), []
        stones = sorted(position.stones().items(), key=lambda stone: stone[0][::-1])
        brain.ask(f"START {SIDE}")
        brain.send(f"INFO rule {RULE_NUMBERS[position.rule]}")
        answer = brain.ask("BOARD", *(f"{spelled(point)},{1 if side == own else 2}" for point, side in stones), "DONE")
        while not answer.startswith("ERROR"):
            moves.append(numbers(answer))
            position = position.after(moves[-1])
            if position.won_at():
                break
            k = drawn.draw() % SIDE**2
            places = [(i % SIDE, i // SIDE) for i in [*range(k, SIDE**2), *range(k)]]
            moves.append(next(point for point in places if point not in position.stones()))
            position = position.after(moves[-1])
            answer = brain.ask(f"TURN {spelled(moves[-1])}")
        brain.end()
        return moves, "won" if len(moves) % 2 or answer == "ERROR opponent foul" else answer
