"""Looks for a win where one search finds none: many attacks are tried at a position, each at the replies near by, and those that leave the
least are gone on with, by proof numbers.
"""
from collections import Counter

from boards import WAYS, numbers, other, read
from foul import an
from solutions import both

# With how many times the first nodes a position is searched, one after the other, and what it counts for once that was in vain.
SEARCHES = [(1, 1), (10, 2)]
# How many attacks are tried at a position at most. One of number N is gone on with once EACH * (N - 1) were tried.
ATTACKS, EACH = 30, 15
# How many of them are first moves of tables that win after other replies to the attack before.
HINTS = 6
# After how many replies that are left an attack waits. The others are thought to leave half as many of them as those that were asked, of
# which so many more are counted.
LEFT, SURE = 4, 60
# A reply that is searched in vain after so many attacks counts as searched so after the others too.
OFTEN = 2
# What an attack that makes a four counts for besides.
FOUR = 1
# How many tables of other replies are tried at one before a search.
TRIES = 6
# How near stones the replies and attacks stand, and what a point that is further away has to be worth.
NEAR, MUCH = 2, 60
# What a point is worth for each of its windows of five without stones of the one side, by the stones of the other.
WORTH = 1, 6, 36, 200, 1000
# The proof number of what has no attack left.
HOPELESS = 1_000_000


def apart(p, q):
    return max(abs(p[0] - q[0]), abs(p[1] - q[1]))


def under(position, text):
    """The nodes of a table's text under another position."""
    return "".join([position.text("renju-table 1"), *text.splitlines(keepends=True)[5:]])


def first_move(text):
    """The first move of a table's text."""
    return numbers(text.rstrip("\n").rpartition("\n")[2].split(" ")[0])


def worth(position, point):
    """What a point is worth: what it makes and what it takes."""
    stones, found = position.stones(), 0
    for x, y in WAYS:
        for first in range(-4, 1):
            window = [(point[0] + (first + it) * x, point[1] + (first + it) * y) for it in range(5)]
            if position.has(window[0]) and position.has(window[-1]):
                sides = Counter(stones[it] for it in window if it in stones)
                found += sum(WORTH[sides[it]] for it in ("black", "white") if not sides[other(it)])
    return found


def end_of(position, attack, fouls=None):
    """Why an attack has no replies that can be answered, in words, or nothing. The fouls of the position are asked for where they aren't
    given.
    """
    fouls, after = position.fouls() if fouls is None else fouls, position.after(attack)
    if attack in fouls:
        return f"is {an(fouls[attack])}"
    if after.won_at() or not after.empties():
        return "wins at once" if after.won_at() else "fills the board"
    fives = after.fives(after.side())
    if fives:
        return f"lets {both(fives[0], after)} win"
    return "" if after.empties()[1:] else "lets the board be filled"


class Turn:
    """A position of the side that is to win: the text of a table whose nodes win there once there is one, how many searches were in vain,
    the attacks that were tried, and those that are to be.
    """

    def __init__(self, position):
        self.position, self.table, self.searches, self.attacks, self.tried, self.untried = position, None, 0, [], [], None
        # After how many attacks here a reply was left, so that it is asked first, and after how many it was searched so often in vain.
        self.leaving, self.vain = Counter(), Counter()

    def number(self, searches=0):
        """Its proof number: how much is thought to be left until it has a table, once it was searched so often."""
        if self.table:
            return 0
        _, searched = SEARCHES[max(self.searches, searches, 1) - 1]
        if self.untried is None:
            return searched
        return min([searched if self.untried else HOPELESS, *(it.number() for it in self.attacks)])

    def attack(self):
        """The attack to go on with, or None where another one is to be tried first."""
        best = min(self.attacks, key=Attack.number, default=None)
        return None if self.untried and (best is None or best.number() > 1 + len(self.tried) / EACH) else best

    def text(self):
        """The text of its table."""
        return under(self.position, self.table)


class Attack:
    """An attack at a position: the replies that have a table and those that are left, with their turns, the tables that were found for
    them, and the replies that weren't asked.
    """

    def __init__(self, turn, point):
        self.turn, self.point, self.after = turn, point, turn.position.after(point)
        self.won, self.left, self.found, self.unasked, self.makes_four = {}, {}, [], [], False

    def number(self):
        """Its proof number: what its replies that are left have together, and what those that weren't asked are thought to have."""
        known = sum(turn.number(self.searches(it)) for it, turn in self.left.items()) + sum(map(self.is_feared, self.unasked))
        asked = len(self.won) + len(self.left)
        more = max(1, known * len(self.unasked) / (asked + SURE) / 2) if self.unasked else 0
        return known + more + FOUR * self.makes_four

    def is_feared(self, reply):
        """Whether a reply was left after other attacks here."""
        return self.turn.leaving[reply] >= OFTEN

    def searches(self, reply):
        """How often a reply that is left is thought to be searched in vain, by what came of it after other attacks."""
        found = self.left[reply].searches
        while found < len(SEARCHES) and self.turn.vain[reply, found + 1] >= OFTEN:
            found += 1
        return found

    def hints(self):
        """The first moves of the tables found, the most frequent ones first."""
        return [it for it, _ in Counter(map(first_move, self.found)).most_common(HINTS)]


class Attacking:
    """The search. `search` answers the text of a position with that of a table that so many nodes find, or None; `check` says whether a
    text is accepted; and `join` answers a position, an attack and the texts of tables of replies with what is told of them, a table or
    which reply has no answer.
    """

    def __init__(self, search, check, join, nodes):
        self.search, self.check, self.join, self.nodes, self.turns, self.tried = search, check, join, nodes, {}, 0

    def table(self, position, hints, attacks):
        """The text of a table of a position at which a search was in vain, or None once so many attacks were tried in all, or none is left.
        Those of the hints come first. It goes on where it was asked with fewer attacks.
        """
        root = self.turn_at(position)
        root.searches, root.untried = len(SEARCHES), [it for it in candidates(position, hints) if it not in root.tried]
        while not root.table and self.tried < attacks and root.number() < HOPELESS:
            self.step(root, hints)
        return root.table

    def turn_at(self, position):
        return self.turns.setdefault(position.text(), Turn(position))

    def is_found(self, turn):
        """Searches a turn without a table, with more nodes than before. It says whether it has one now."""
        times, _ = SEARCHES[turn.searches]
        turn.searches += 1
        turn.table = self.search(turn.position.text(), times * self.nodes)
        return bool(turn.table)

    def step(self, turn, hints):
        """Searches a turn with more nodes, tries another attack there, or goes on with the one that has the least number."""
        if turn.searches < len(SEARCHES):
            self.is_found(turn)
            return
        if turn.untried is None:
            turn.untried = candidates(turn.position, hints)
        attack = turn.attack()
        if attack:
            self.go_on(attack)
        elif turn.untried:
            attack = self.begun(turn, turn.untried.pop(0))
        if attack:
            self.finish(attack)

    def begun(self, turn, point):
        """An attack at a turn, asked at its replies until some are left, or None where the pass after it isn't won."""
        self.tried += 1
        turn.tried.append(point)
        attack = Attack(turn, point)
        after = attack.after
        fouls, fives = after.fouls(), after.fives(other(after.side()))
        free = [it for it in after.empties() if it not in fouls]
        least = min((it for it in free if it not in fives), key=lambda it: (worth(after, it), it), default=None)
        if least is None:
            return None
        if fives:
            # After any other reply the five wins, and one of them is asked at once.
            attack.makes_four, attack.unasked = True, [*(it for it in fives if it in free), least]
        else:
            idle = self.turn_at(after.after(least))
            if not (idle.table or idle.searches == 0 and self.is_found(idle)):
                return None
            attack.won[least] = idle
            attack.found.append(idle.table)
            attack.unasked = replies_near(after, free, idle.table, least)
        attack.unasked.sort(key=lambda it: -turn.leaving[it])
        turn.attacks.append(attack)
        self.ask(attack)
        return attack

    def ask(self, attack):
        """Asks the replies to an attack that weren't asked, until some more are left, or one that was left after other attacks."""
        most = len(attack.left) + LEFT
        while attack.unasked and len(attack.left) < most:
            reply = attack.unasked.pop(0)
            is_feared = attack.is_feared(reply)
            self.reply(attack, reply)
            if is_feared and reply in attack.left:
                return

    def reply(self, attack, reply):
        """Asks a reply to an attack: the tables found for other replies, and one search."""
        turn = self.turn_at(attack.after.after(reply))
        if not self.is_served(attack, turn) and turn.searches == 0 and self.is_found(turn):
            attack.found.append(turn.table)
        (attack.won if turn.table else attack.left)[reply] = turn
        attack.turn.leaving[reply] += not turn.table

    def is_served(self, attack, turn):
        """Tries the tables found for replies to an attack at a turn after another one. It says whether it has a table."""
        if not turn.table:
            tables = [*attack.found[:0:-1][:TRIES], *attack.found[:1]]
            turn.table = next((it for it in tables if self.check(under(turn.position, it))), None)
        return bool(turn.table)

    def go_on(self, attack):
        """Asks more replies to an attack, or goes on at the one that is left with the greatest number."""
        if attack.unasked and all(it.searches == 1 for it in attack.left.values()):
            self.ask(attack)
            return
        reply, turn = max(attack.left.items(), key=lambda it: it[1].number())
        if not turn.table and (turn.untried is not None or not self.is_served(attack, turn)):
            self.step(turn, attack.hints())
            if turn.untried is None:
                attack.turn.vain[reply, turn.searches] += -OFTEN if turn.table else 1

    def finish(self, attack):
        """Joins the tables of the replies to an attack once none is left. A reply that has no answer then is asked too."""
        for reply in [it for it, turn in attack.left.items() if turn.table]:
            attack.won[reply] = attack.left.pop(reply)
            if attack.won[reply].table not in attack.found:
                attack.found.append(attack.won[reply].table)
        while not attack.left and not attack.unasked:
            told = self.join(attack.turn.position, attack.point, [it.text() for it in attack.won.values()])
            if told.startswith("renju-table"):
                attack.turn.table = told
                return
            reply = numbers(told.split()[2]) if told.startswith("no answer ") else None
            if reply is None or reply in attack.won:
                attack.turn.attacks.remove(attack)
                return
            self.reply(attack, reply)


def candidates(position, hints):
    """The attacks that are tried at a position: hints, and then points near stones of the side, the worthiest first. Where the other side
    has a five point it is that alone, and where it has several there is none.
    """
    side = position.side()
    fives, own, fouls = position.fives(other(side)), getattr(position, side), position.fouls()
    if fives:
        return [it for it in fives if not fives[1:] and not end_of(position, it, fouls)]
    values = {it: worth(position, it) for it in position.empties()}
    near = [it for it in values if values[it] > MUCH or any(apart(it, stone) <= NEAR for stone in own)]
    ordered = [*(it for it in hints if it in values), *sorted(near, key=lambda it: -values[it])]
    return [it for it in dict.fromkeys(ordered) if not end_of(position, it, fouls)][:ATTACKS]


def replies_near(after, free, text, idle):
    """The replies to an attack that are asked, of those that are free, the worthiest first: those near stones, and the points of the table
    that wins after an idle one.
    """
    stones, points = after.stones(), set()
    for node in read(text.encode()).nodes:
        points |= {node.attack, *(it for it, _ in node.replies)}
    near = [it for it in free if it != idle and (it in points or any(apart(it, stone) <= NEAR for stone in stones))]
    return sorted(near, key=lambda it: -worth(after, it))
