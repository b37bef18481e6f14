"""Makes the tables that the scripts beside it measure with."""

WIDTH, HEIGHT = 12, 13
# Two rows of four with both ends open: four five points, of which three replies take three at most.
BLACK = [(x, y) for y in (3, 9) for x in (4, 5, 6, 7)]
WHITE = [(0, 0), (5, 0), (10, 0), (0, 5), (11, 5), (0, 12), (5, 12), (10, 12)]
FIVES = [(3, 3), (8, 3), (3, 9), (8, 9)]
QUIET = [(1, 6), (3, 6), (6, 6), (9, 6), (11, 6), (1, 11)]
# The empty points of a full board but 0,0 and 5,0, where Black makes five.
FILLERS = [(10, 0), (3, 1), (8, 1), (1, 2), (6, 2), (11, 2), (0, 5), (5, 5), (3, 6), (8, 6), (1, 7), (6, 7), (11, 7), (4, 8),
           (9, 8), (2, 9), (7, 9), (0, 10), (5, 10), (10, 10)]


def point(p):
    return f"{p[0]},{p[1]}"


def in_order(points):
    return sorted(points, key=lambda p: (p[1], p[0]))


def position_lines(width=WIDTH, height=HEIGHT, black=BLACK, white=WHITE):
    side = lambda word, stones: " ".join([word] + [point(p) for p in in_order(stones)])
    size = f"size {width}" if width == height else f"size {width},{height}"
    return ["rule freestyle", size, side("black", black), side("white", white)]


def table(lines, moves, nodes):
    return "\n".join(["renju-table 1"] + lines + [f"moves {moves}", f"nodes {len(nodes)}"] + nodes) + "\n"


def slow_win(quiet_moves, width=WIDTH, height=HEIGHT, apart=False):
    """A table whose attacker makes quiet moves before its five, so that the checker has to try every reply to each.

    A node is made for each number of quiet moves left and each set of the named points that are taken. The same stones come
    about in more than one order. `apart` makes nodes of their own for each first reply, so that no pair of a node and a
    position comes twice.
    """
    nodes, numbers = [], {}
    taken_first = set(BLACK + WHITE)

    def replies_to(left, taken, attack):
        """The replies that are listed."""
        if apart and left == quiet_moves:
            on_board = in_order([(x, y) for x in range(width) for y in range(height)])
            return [p for p in on_board if p not in taken_first and p != attack]
        return in_order([p for p in FIVES + QUIET if p not in taken and p != attack])

    def node(left, taken, first):
        key = (left, taken, first)
        if key in numbers:
            return numbers[key]
        if left == 0:
            text = point(next(p for p in FIVES if p not in taken)) + " wins"
        else:
            attack = next(p for p in QUIET if p not in taken)
            own = lambda p: p if apart and left == quiet_moves else first
            replies = [(p, node(left - 1, taken | {attack, p} & set(FIVES + QUIET), own(p))) for p in replies_to(left, taken, attack)]
            rest = node(left - 1, taken | {attack}, first)
            text = f"{point(attack)} rest {rest}" + "".join(f" {point(p)}>{j}" for p, j in replies if j != rest)
        nodes.append(text)
        numbers[key] = len(nodes) - 1
        return numbers[key]

    node(quiet_moves, frozenset(), None)
    return table(position_lines(width, height), quiet_moves + 1, nodes)


def fillers():
    """A table on a board that is nearly full: the attacker takes the least empty point that makes no five, until Black has a
    five. A node is made for each set of such points that the play can leave, so that few positions come about in very many
    orders."""
    nodes, numbers = ["0,0 wins", "5,0 wins"], {(): 0}
    empty = FILLERS + [(0, 0), (5, 0)]
    black = [(x, y) for x in range(12) for y in range(12) if (x, y) not in empty and ((x, y) in [(2, 0), (3, 0)] or (x + 2 * y) % 4 < 2)]
    white = [(x, y) for x in range(12) for y in range(12) if (x, y) not in empty + black]

    def node(left):
        if left not in numbers:
            others = left[1:]
            replies = [(q, node(tuple(p for p in others if p != q))) for q in others]
            listed = sorted(replies + [((0, 0), 1), ((5, 0), 0)], key=lambda reply: (reply[0][1], reply[0][0]))
            nodes.append(point(left[0]) + " only" + "".join(f" {point(q)}>{j}" for q, j in listed))
            numbers[left] = len(nodes) - 1
        return numbers[left]

    node(tuple(FILLERS))
    return table(position_lines(12, 12, black, white), 11, nodes)


def chain(count):
    """A table of so many nodes, each of which names the one before it, and of which the root wins at once."""
    nodes = [point(FIVES[0]) + " wins"] + [f"{point(FIVES[0])} rest {i}" for i in range(count - 1)]
    return table(position_lines(), count, nodes)


def long_lists(count, replies, side=15):
    """A table on a square board of so many nodes, each of which but the first names the one before it after so many replies."""
    points = [(x, y) for y in range(side) for x in range(side) if (x, y) not in BLACK + WHITE + FIVES][:replies]
    listed = lambda i: "".join(f" {point(p)}>{i}" for p in points)
    nodes = [point(FIVES[0]) + " wins"] + [f"{point(FIVES[0])} only{listed(i)}" for i in range(count - 1)]
    return table(position_lines(side, side), count, nodes)


def many_nodes(count):
    """A table of so many nodes, of which the root names none."""
    return table(position_lines(), 1, [point(FIVES[0]) + " wins"] * count)
