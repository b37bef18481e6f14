// A page of problems: a board on which a reply is clicked and the table's attack is played, its moves as links, and keys.
"use strict";

const STEP = 34, EDGE = 40;
const SIDES = { [BLACK]: "Black", [WHITE]: "White" };
const $ = id => document.getElementById(id);

/** The problems, with the replies of each node as a map. */
const problems = JSON.parse($("problems").textContent).map(problem => {
  const node = ([attack, rest, pairs]) => ({ attack, rest, replies: new Map(pairs) });
  return { ...problem, nodes: problem.nodes.map(node), start: problem.start && node(problem.start) };
});

/** What is shown: a problem, a line of moves of it, and how many of them are on the board. */
const shown = { problem: 0, line: [], count: 0, answers: false, numbers: true, said: "" };

const current = () => problems[shown.problem];
const at = (place) => EDGE + place * STEP;
const letter = column => (column < 26 ? "" : "a") + String.fromCharCode(97 + column % 26);

function nameOf(problem, point) {
  return letter(point % problem.width) + (problem.height - Math.floor(point / problem.width));
}

function pointOf(problem, name) {
  const found = /^(a?)([a-z])([1-9]\d?)$/.exec(name);
  if (!found) return -1;
  const x = found[2].charCodeAt(0) - 97 + (found[1] ? 26 : 0), y = problem.height - Number(found[3]);
  return x < problem.width && y >= 0 && y < problem.height ? y * problem.width + x : -1;
}

function element(name, attributes, ...parts) {
  const made = document.createElementNS("http://www.w3.org/2000/svg", name);
  for (const [key, value] of Object.entries(attributes)) made.setAttribute(key, value);
  made.append(...parts);
  return made;
}

const xy = (problem, point) => [at(point % problem.width), at(Math.floor(point / problem.width))];

/** The address of the first moves of the line. */
function address(count) {
  const moves = shown.line.slice(0, count).map(point => nameOf(current(), point));
  return `#${shown.problem + 1}${moves.length ? `:${moves.join(",")}` : ""}`;
}

/** Shows what an address says, as far as it is a line of a table. */
function visit() {
  const [number, moves] = location.hash.slice(1).split(":");
  const problem = Math.min(Math.max(Number(number) || 1, 1), problems.length) - 1;
  const line = moves ? moves.split(",").map(name => pointOf(problems[problem], name)) : [];
  while (!follow(problems[problem], line)) line.pop();
  const isSame = problem === shown.problem && line.every((point, place) => shown.line[place] === point);
  Object.assign(shown, { problem, line: isSame ? shown.line : line, count: line.length, said: "" });
  draw();
}

function show(line, count) {
  Object.assign(shown, { line, count, said: "" });
  try {
    history.replaceState(null, "", address(count));
  } catch (error) {
    // A browser that is asked too often keeps the address; the board goes on.
  }
  draw();
}

/** A click on a point: a reply, which is answered, or the table's own move. */
function click(point) {
  const problem = current(), line = shown.line.slice(0, shown.count), game = follow(problem, line);
  if (game.end || !game.board.isEmpty(point)) return;
  if (game.isAttack && point !== game.node.attack) {
    shown.said = `The table doesn't play ${nameOf(problem, point)} here. It has one move, and says nothing of others.`;
    draw();
    return;
  }
  line.push(point);
  const after = follow(problem, line);
  if (!after) return;
  if (!after.end && after.isAttack) line.push(after.node.attack);
  show(line, line.length);
}

/** One move on: of the line, or the table's own move. */
function forward() {
  if (shown.count < shown.line.length) return show(shown.line, shown.count + 1);
  const game = follow(current(), shown.line);
  if (!game.end && game.isAttack) show([...shown.line, game.node.attack], shown.count + 1);
}

const back = () => shown.count > 0 && show(shown.line, shown.count - 1);
const toStart = () => show(shown.line, 0);
const toEnd = () => shown.count < shown.line.length ? show(shown.line, shown.line.length) : forward();

function grid(problem) {
  const right = at(problem.width - 1), bottom = at(problem.height - 1), lines = element("g", { class: "lines" });
  for (let x = 0; x < problem.width; x++) lines.append(element("line", { x1: at(x), y1: EDGE, x2: at(x), y2: bottom }));
  for (let y = 0; y < problem.height; y++) lines.append(element("line", { x1: EDGE, y1: at(y), x2: right, y2: at(y) }));
  lines.append(element("rect", { x: EDGE, y: EDGE, width: right - EDGE, height: bottom - EDGE }));
  const isOdd = problem.width === problem.height && problem.width % 2 === 1 && problem.width >= 13;
  const [far, middle] = [problem.width - 4, (problem.width - 1) / 2];
  for (const [x, y] of isOdd ? [[3, 3], [far, 3], [middle, middle], [3, far], [far, far]] : []) {
    lines.append(element("circle", { cx: at(x), cy: at(y), r: 3.4, class: "star" }));
  }
  return lines;
}

function edges(problem) {
  const names = element("g", { class: "names" });
  for (let x = 0; x < problem.width; x++) {
    for (const y of [EDGE - 24, at(problem.height - 1) + 26]) names.append(element("text", { x: at(x), y: y + 4 }, letter(x)));
  }
  for (let y = 0; y < problem.height; y++) {
    for (const x of [EDGE - 25, at(problem.width - 1) + 25]) names.append(element("text", { x, y: at(y) + 4 }, problem.height - y));
  }
  return names;
}

function stone(problem, point, side, words, kind = "") {
  const [x, y] = xy(problem, point), name = side === BLACK ? "black" : "white";
  const parts = [
    element("circle", { cx: x + 1.4, cy: y + 2, r: 15, class: "shadow" }),
    element("circle", { cx: x, cy: y, r: 15, class: name, fill: `url(#${name})` }),
  ];
  if (words) parts.push(element("text", { x, y: y + 5.2, class: `on-${name}` }, words));
  return element("g", { class: `stone ${kind}` }, ...parts);
}

function cross(problem, point) {
  const [x, y] = xy(problem, point);
  const lines = `M${x - 8} ${y - 8}L${x + 8} ${y + 8}M${x - 8} ${y + 8}L${x + 8} ${y - 8}`;
  return element("path", { d: lines, class: "foul", "data-foul": point });
}

/** The replies that the table lists, each with the number of its answer, and the answers as rings. */
function answers(problem, game) {
  const numbers = new Map(), drawn = element("g", { class: "answers" });
  for (const [reply, next] of game.node.replies) {
    const answer = problem.nodes[next].attack;
    if (!numbers.has(answer)) numbers.set(answer, String(numbers.size + 1));
    const [x, y] = xy(problem, reply);
    const words = element("text", { x: x + 10, y: y - 6 }, numbers.get(answer));
    drawn.append(element("circle", { cx: x + 10, cy: y - 10, r: 9, class: "reply" }), words);
  }
  if (game.node.rest !== null) {
    const answer = problem.nodes[game.node.rest].attack;
    numbers.set(answer, `${numbers.get(answer) || ""}*`);
  }
  for (const [answer, words] of numbers) {
    const [x, y] = xy(problem, answer);
    drawn.prepend(element("circle", { cx: x, cy: y, r: 13, class: "answer" }), element("text", { x, y: y + 5 }, words));
  }
  return drawn;
}

/** The whole board, with a square for each point that can be clicked. */
function boardOf(problem, game, line) {
  const width = at(problem.width - 1) + EDGE, height = at(problem.height - 1) + EDGE;
  const svg = element("svg", { viewBox: `0 0 ${width} ${height}`, role: "img", "aria-label": `The board after ${line.length} moves` });
  svg.append(element("rect", { width, height, rx: 8, fill: "url(#wood)" }), grid(problem), edges(problem));
  firstBoard(problem).cells.forEach((cell, point) => cell !== EMPTY && svg.append(stone(problem, point, cell, "")));
  line.forEach((point, place) => {
    const last = place === line.length - 1;
    svg.append(stone(problem, point, game.board.cells[point], shown.numbers ? place + 1 : last ? "•" : "", last ? "last" : "played"));
  });
  if (game.end) {
    for (const point of game.end.run) {
      const [x, y] = xy(problem, point);
      svg.append(game.end.foul ? cross(problem, point) : element("circle", { cx: x, cy: y, r: 17, class: "won" }));
    }
  } else {
    if (shown.answers && !game.isAttack) svg.append(answers(problem, game));
    for (const point of game.board.fouls().keys()) svg.append(cross(problem, point));
    const side = game.board.mover() === BLACK ? "for-black" : "for-white";
    game.board.cells.forEach((cell, point) => {
      const [x, y] = xy(problem, point);
      const square = { x: x - STEP / 2, y: y - STEP / 2, width: STEP, height: STEP, class: "square", "data-point": point };
      if (cell === EMPTY) {
        const ghost = element("circle", { cx: x, cy: y, r: 13, class: "ghost" });
        svg.append(element("g", { class: `free ${side}` }, ghost, element("rect", square)));
      }
    });
  }
  return svg;
}

/** Who is to move, or how the game ended. */
function words(problem, game) {
  const last = shown.count ? nameOf(problem, shown.line[shown.count - 1]) : "";
  const kind = game.end && game.end.foul;
  if (kind) return `${last} is ${kind === "overline" ? "an" : "a"} ${kind}: a foul. ${SIDES[game.end.winner]} wins.`;
  if (game.end) return `${last} makes five. ${SIDES[game.end.winner]} wins.`;
  const mover = SIDES[game.board.mover()], moves = `${problem.moves} move${problem.moves === 1 ? "" : "s"}`;
  if (game.isAttack && !last) return `${mover} to move and win in ${moves}. Find the first move, or press ▶.`;
  if (game.isAttack) return `${SIDES[3 - game.board.mover()]} plays ${last}. Find the answer, or press ▶.`;
  return `${last ? `${SIDES[3 - game.board.mover()]} plays ${last}. ` : ""}${mover} to move: click any reply, and it is answered.`;
}

function movesOf(problem) {
  return shown.line.map((point, place) => {
    const item = document.createElement("li"), link = document.createElement("a");
    link.href = address(place + 1);
    link.textContent = nameOf(problem, point);
    const isBlack = (firstBoard(problem).mover() === BLACK) === (place % 2 === 0);
    link.className = `${isBlack ? "black" : "white"}${place + 1 === shown.count ? " now" : ""}${place >= shown.count ? " later" : ""}`;
    item.append(link);
    return item;
  });
}

function draw() {
  const problem = current(), line = shown.line.slice(0, shown.count), game = follow(problem, line);
  $("board").replaceChildren(boardOf(problem, game, line));
  $("title").textContent = problem.title;
  $("words").textContent = shown.said || words(problem, game);
  $("moves").replaceChildren(...movesOf(problem));
  $("about").textContent = `${problem.words}. renju check: ${problem.accepted}.`;
  $("first").disabled = $("back").disabled = shown.count === 0;
  $("on").disabled = $("last").disabled = shown.count === shown.line.length && (Boolean(game.end) || !game.isAttack);
  document.querySelectorAll("#list a").forEach((link, place) => link.classList.toggle("now", place === shown.problem));
}

function listProblems() {
  $("list").hidden = problems.length < 2;
  $("list").append(...problems.map((problem, place) => {
    const item = document.createElement("li"), link = document.createElement("a"), small = document.createElement("small");
    link.href = `#${place + 1}`;
    small.textContent = problem.words;
    link.append(problem.title, small);
    item.append(link);
    return item;
  }));
}

const KEYS = { ArrowLeft: back, ArrowRight: forward, Home: toStart, ArrowUp: toStart, End: toEnd, ArrowDown: toEnd };

function begin() {
  listProblems();
  $("board").addEventListener("click", event => {
    const point = event.target.getAttribute("data-point");
    if (point !== null) click(Number(point));
  });
  for (const [id, act] of [["first", toStart], ["back", back], ["on", forward], ["last", toEnd]]) $(id).addEventListener("click", act);
  for (const id of ["answers", "numbers"]) {
    $(id).addEventListener("change", event => {
      shown[id] = event.target.checked;
      draw();
    });
  }
  document.addEventListener("keydown", event => {
    const act = event.altKey || event.ctrlKey || event.metaKey ? null : KEYS[event.key];
    if (act) {
      event.preventDefault();
      act();
    }
  });
  window.addEventListener("hashchange", visit);
  visit();
}

begin();
