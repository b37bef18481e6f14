#!/usr/bin/env python3
"""Writes one HTML file with a board for each table, to be published: a reply is clicked, and the table's attack is played.

    page.py [--title WORDS] [--out FILE] [--arrivals N] FILE ..

FILE is a table, a book, each of whose entries is a problem of the page, or - for standard input. Each table is checked first, with
at most N arrivals, and the page says what `renju check` said; one that isn't accepted is refused. The page loads nothing and needs
no server. Its moves are links that can be sent, fouls are marked under renju, and the keys are the arrows, Home and End.

The page goes to standard output, or to --out, which is written over only where it is a page of this script.
"""
import argparse
import json
import sys
from html import escape
from pathlib import Path

sys.dont_write_bytecode = True

from boards import Wrong, answered, saying, tables_in
from outputs import write
from pictures import DEFINED, picture, words_of
from solving import ranged

PARTS = Path(__file__).resolve().parent / "page"
MOST_ARRIVALS = 1_000_000_000_000
TABLE_REFUSED = 4
MADE_BY = '<meta name="generator" content="renju page.py">'
PAGE = """<!DOCTYPE html>
<html lang="en">
<head>
<meta charset="utf-8">
<meta name="viewport" content="width=device-width, initial-scale=1">
<meta http-equiv="Content-Security-Policy" content="default-src 'none'; style-src 'unsafe-inline'; script-src 'unsafe-inline'">
{made_by}
<title>{title}</title>
<style>
{css}</style>
</head>
<body>
<svg width="0" height="0" style="position:absolute" aria-hidden="true">{defined}</svg>
<main>
<h1>{title}</h1>
<ul id="list"></ul>
<div class="game">
<div id="board"></div>
<div>
<h2 id="title"></h2>
<p id="words" aria-live="polite"></p>
<div class="buttons">
<button id="first" title="To the position (Home)">|◀</button><button id="back" title="One move back (←)">◀</button>
<button id="on" title="One move on (→)">▶</button><button id="last" title="To the last move (End)">▶|</button>
</div>
<ol id="moves"></ol>
<p><label><input type="checkbox" id="answers"> Answers</label><label><input type="checkbox" id="numbers" checked> Numbers</label></p>
<p class="small">With “Answers” each reply that the table lists has a small number, the ring with that number answers it, and the ring
with a star answers all others. A red cross is a foul of Black.
Keys: <kbd>←</kbd> <kbd>→</kbd> one move, <kbd>Home</kbd> <kbd>End</kbd>.</p>
<p class="small" id="about"></p>
</div>
</div>
<noscript>
{pictures}</noscript>
</main>
<script type="application/json" id="problems">{problems}</script>
<script>
{rules}
{page}</script>
</body>
</html>
"""


def accepted(name, table, arrivals):
    """What `check` says of a table, which it has to accept."""
    told, status = answered(["check", arrivals], table.text())
    if status != 0:
        why = "; examples/why.py tells why" if status == TABLE_REFUSED else ""
        raise Wrong(f"{name}: renju check says {told.strip() or f'nothing, and status {status}'}{why}")
    return told.strip()


def problem(title, table, said):
    """What the page is told of a table. A point is a number: its row times the width, plus its column."""
    position = table.position
    number = lambda point: point[1] * position.width + point[0]
    node = lambda it: [number(it.attack) if it.attack else None, it.rest, [[number(reply), place] for reply, place in it.replies]]
    return {
        "title": title, "words": table.words(), "accepted": said, "moves": table.moves,
        "rule": position.rule, "width": position.width, "height": position.height,
        "black": [number(it) for it in position.black], "white": [number(it) for it in position.white],
        "nodes": [node(it) for it in table.nodes], "start": node(table.start) if table.start else None,
    }


def page(title, tables, arrivals):
    """The page of tables, each with its name."""
    problems, pictures = [], []
    for name, table in tables:
        problems.append(problem(name, table, accepted(name, table, arrivals)))
        pictures.append(picture(table, words_of([])))
    # Nothing in a script may look like the end of it.
    data = json.dumps(problems, separators=(",", ":")).replace("<", "\\u003c")
    parts = {"css": "page.css", "rules": "rules.js", "page": "page.js"}
    read = {name: (PARTS / file).read_text(encoding="utf-8") for name, file in parts.items()}
    return PAGE.format(title=escape(title), made_by=MADE_BY, defined=DEFINED, problems=data, pictures="".join(pictures), **read)


def named_tables(files):
    """The tables of the files, each with a name: that of its file, and the entry of a book."""
    for file in files:
        stem = "Problem" if file == "-" else Path(file).stem
        for number, table in tables_in(file):
            yield stem if number is None else f"{stem} {number}", table


def main():
    words = argparse.ArgumentParser(description=__doc__, formatter_class=argparse.RawDescriptionHelpFormatter)
    words.add_argument("--title", metavar="WORDS", help="the head of the page"), words.add_argument("--out", metavar="FILE")
    words.add_argument("--arrivals", type=ranged(1, MOST_ARRIVALS, "ARRIVALS"), default=MOST_ARRIVALS, metavar="N")
    words.add_argument("files", nargs="+", metavar="FILE", help="tables and books")
    given = words.parse_args()
    tables = list(named_tables(given.files))
    title = given.title or (tables[0][1].words() if len(tables) == 1 else f"{len(tables)} problems")
    text = page(title, tables, given.arrivals)
    if given.out:
        write(given.out, text, lambda there: MADE_BY in there, "it is no page of this script; name another file")
    else:
        sys.stdout.write(text)
    return 0


if __name__ == "__main__":
    saying(main)
