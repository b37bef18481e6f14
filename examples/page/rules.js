// The rules of play on the board of a page, and how a table answers. A point is a number: its row times the width, plus its column.
"use strict";

const EMPTY = 0, BLACK = 1, WHITE = 2;
const WAYS = [[1, 0], [0, 1], [1, 1], [1, -1]];

/** A board with its rule, and its stones as a list of EMPTY, BLACK or WHITE. */
class Board {
  constructor(rule, width, height, cells) {
    Object.assign(this, { rule, width, height, cells });
  }

  with(point, side) {
    const cells = this.cells.slice();
    cells[point] = side;
    return new Board(this.rule, this.width, this.height, cells);
  }

  /** The point some steps away in a way, or -1 off the board. */
  along(point, way, steps) {
    const x = point % this.width + steps * way[0], y = Math.floor(point / this.width) + steps * way[1];
    return x >= 0 && x < this.width && y >= 0 && y < this.height ? y * this.width + x : -1;
  }

  holds(point, side) {
    return point >= 0 && this.cells[point] === side;
  }

  isEmpty(point) {
    return point >= 0 && this.cells[point] === EMPTY;
  }

  /** The side to move: Black where both have as many stones. */
  mover() {
    const count = side => this.cells.reduce((sum, cell) => sum + (cell === side), 0);
    return count(BLACK) === count(WHITE) ? BLACK : WHITE;
  }

  /** The unbroken row of one side's stones through a stone, in order. */
  run(point, way) {
    const side = this.cells[point], found = [point];
    for (let steps = 1; this.holds(this.along(point, way, steps), side); steps++) found.push(this.along(point, way, steps));
    for (let steps = -1; this.holds(this.along(point, way, steps), side); steps--) found.unshift(this.along(point, way, steps));
    return found;
  }

  /** The run through a stone that wins, or nothing. */
  winningRun(point) {
    const exactly = this.rule === "exact" || this.rule === "renju" && this.cells[point] === BLACK;
    return WAYS.map(way => this.run(point, way)).find(run => exactly ? run.length === 5 : run.length >= 5);
  }

  /** Whether Black's stone on an empty point makes a run of exactly five on the axis. */
  makesFive(point, way) {
    return this.isEmpty(point) && this.with(point, BLACK).run(point, way).length === 5;
  }

  /** How many fours Black's stone on a point makes on the axis: sets of four stones that one more makes a run of exactly five. */
  foursOn(point, way) {
    const found = new Set();
    for (let first = -4; first <= 0; first++) {
      const places = [0, 1, 2, 3, 4].map(step => this.along(point, way, first + step));
      const own = places.filter(place => this.holds(place, BLACK)), left = places.filter(place => !this.holds(place, BLACK));
      if (own.length === 4 && this.makesFive(left[0], way)) found.add(own.join());
    }
    return found.size;
  }

  /** Whether another stone makes a straight four of the one on a point on the axis, at a point that is no five and no foul. */
  isThree(point, way) {
    return [-3, -2, -1, 1, 2, 3].some(steps => {
      const place = this.along(point, way, steps);
      if (!this.isEmpty(place) || WAYS.some(it => this.makesFive(place, it))) return false;
      const then = this.with(place, BLACK), run = then.run(place, way);
      if (run.length !== 4 || !run.includes(point)) return false;
      const isStraight = then.makesFive(then.along(run[0], way, -1), way) && then.makesFive(then.along(run[3], way, 1), way);
      return isStraight && this.foul(place) === null;
    });
  }

  /** How many black stones are within five steps of a point on its axes. */
  near(point) {
    let found = 0;
    for (const way of WAYS) {
      for (let steps = -5; steps <= 5; steps++) found += steps !== 0 && this.holds(this.along(point, way, steps), BLACK);
    }
    return found;
  }

  /** The foul that Black's stone on an empty point makes, or null. None is made with fewer than four stones near. */
  foul(point) {
    if (this.near(point) < 4) return null;
    const then = this.with(point, BLACK), lengths = WAYS.map(way => then.run(point, way).length);
    if (lengths.includes(5)) return null;
    if (lengths.some(length => length >= 6)) return "overline";
    if (WAYS.reduce((sum, way) => sum + then.foursOn(point, way), 0) >= 2) return "double-four";
    return WAYS.filter(way => then.isThree(point, way)).length >= 2 ? "double-three" : null;
  }

  /** The fouls of the side to move, by their points. */
  fouls() {
    const found = new Map();
    if (this.rule !== "renju" || this.mover() !== BLACK) return found;
    this.cells.forEach((cell, point) => {
      const kind = cell === EMPTY ? this.foul(point) : null;
      if (kind) found.set(point, kind);
    });
    return found;
  }
}

/** The board of a problem before its first move. */
function firstBoard(problem) {
  const cells = new Array(problem.width * problem.height).fill(EMPTY);
  problem.black.forEach(point => { cells[point] = BLACK; });
  problem.white.forEach(point => { cells[point] = WHITE; });
  return new Board(problem.rule, problem.width, problem.height, cells);
}

/**
 * The game after a line of moves: its board, the node in turn, whether the table's side is to move, and how it ended, if it did.
 * A line that leaves the table, or goes on after the end, is null.
 */
function follow(problem, line) {
  let board = firstBoard(problem), isAttack = !problem.start, end = null;
  let node = problem.start || problem.nodes[problem.nodes.length - 1];
  for (const point of line) {
    if (end || !board.isEmpty(point)) return null;
    const side = board.mover(), foul = isAttack || board.rule !== "renju" || side !== BLACK ? null : board.foul(point);
    const after = board.with(point, side), run = after.winningRun(point);
    if (isAttack) {
      if (point !== node.attack) return null;
      if (run) end = { winner: side, run };
    } else if (foul) {
      end = { winner: WHITE, foul, run: [point] };
    } else {
      const next = node.replies.has(point) ? node.replies.get(point) : node.rest;
      if (run || next === null) return null;
      node = problem.nodes[next];
    }
    [board, isAttack] = [after, !isAttack];
  }
  return { board, node, isAttack, end };
}
