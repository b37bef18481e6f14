#!/usr/bin/env python3
"""The picture of a page that README shows, examples/page/shown.png: drawn anew where this is run, and compared by .ci/composers.py.

    page_picture.py [PROGRAM]

The picture is what Chromium shows of a page of three problems after some moves. It says of which page it is, and where the parts of
the page stand in it. So it is seen without a browser whether the page is another one by now; and with one, whose letters are of the
same size, the picture is compared with what the browser shows, by the mean colours of small squares.
"""
import hashlib
import json
import re
import shutil
import struct
import subprocess
import sys
import tempfile
import zlib
from html import unescape
from pathlib import Path

from trying import EXAMPLES, run

SHOWN = EXAMPLES / "page" / "shown.png"
TITLE, WIDTH, HEIGHT = "Three problems", 1180, 860
# The tables of the page, and the moves that are shown.
TABLES = ("two-move-win.txt", "page/quiet-three.txt", "page/block-fouls.txt")
LINE = "#2:h13,h15,g13,e13,f12"
BROWSERS = ("chromium", "chromium-browser", "google-chrome")
# A browser may take its time to start.
SECONDS_OF_BROWSER = 300
# The parts whose places tell the size of letters, and what tells them.
PARTS = ("h1", "#list", "#board svg", "#title", "#words", "#moves", "#about")
TELLING = """<script>
const placed = PARTS.map(part => { const it = document.querySelector(part).getBoundingClientRect(); return [it.x, it.y, it.width, it.height].map(Math.round); });
document.body.innerHTML = "<pre id='told'></pre>";
document.getElementById("told").textContent = JSON.stringify(placed);
</script>
</body>"""
# The side of a square, and the difference of its mean colour that letters, and another version of the browser, may make.
SQUARE, MOST_DIFFERENCE = 20, 24
SIGNATURE = b"\x89PNG\r\n\x1a\n"
KINDS = {2: 3, 3: 1, 6: 4}


def browser():
    """The path of Chromium, or None."""
    return next(filter(None, map(shutil.which, BROWSERS)), None)


def opened(page, words, address=""):
    """What a browser prints of a page, with words that say what it does with it."""
    with tempfile.TemporaryDirectory() as folder:
        Path(folder, "page.html").write_text(page, encoding="utf-8")
        always = ["--headless", "--no-sandbox", "--disable-gpu", "--disable-dev-shm-usage", "--hide-scrollbars"]
        own = [f"--user-data-dir={folder}/user", f"--window-size={WIDTH},{HEIGHT}", "--force-device-scale-factor=1"]
        command = [browser(), *always, *own, *words, f"file://{folder}/page.html{address}"]
        return subprocess.run(command, capture_output=True, timeout=SECONDS_OF_BROWSER).stdout.decode()


def told_in(page, address=""):
    """What the scripts of a page leave in an element `told`."""
    found = re.search(r'<pre id="told">(.*?)</pre>', opened(page, ["--dump-dom"], address), re.S)
    return json.loads(unescape(found.group(1))) if found else None


def page():
    """The page of the picture."""
    status, text, errors = run("page.py", ["--title", TITLE, *(EXAMPLES / name for name in TABLES)])
    if status:
        sys.exit(f"FAILED page_picture.py: there is no page: {errors}")
    return text


def placed(page):
    """Where the parts of the page stand."""
    return told_in(page.replace("</body>", TELLING.replace("PARTS", json.dumps(PARTS))), LINE)


def screen(page, address=LINE):
    """The bytes of the picture that a browser makes of a page."""
    with tempfile.TemporaryDirectory() as folder:
        opened(page, [f"--screenshot={folder}/shown.png"], address)
        return Path(folder, "shown.png").read_bytes()


def identity(page):
    """Of which page a picture is, and at which address."""
    return hashlib.sha256(f"{page}{LINE}".encode()).hexdigest()


def chunks(png):
    """The chunks of a PNG, each with its kind."""
    at = len(SIGNATURE)
    while at < len(png):
        (length,) = struct.unpack(">I", png[at : at + 4])
        yield png[at + 4 : at + 8], png[at + 8 : at + 8 + length]
        at += 12 + length


def chunk(kind, data):
    """A chunk as it stands in a PNG."""
    return struct.pack(">I", len(data)) + kind + data + struct.pack(">I", zlib.crc32(kind + data))


def with_words(png, words):
    """A PNG with texts, each under its key, in place of those that it has."""
    found = [it for it in chunks(png) if it[0] != b"tEXt"]
    texts = [(b"tEXt", f"{key}\0{text}".encode("latin-1")) for key, text in words.items()]
    parts = [found[0], *texts, *found[1:]]
    return SIGNATURE + b"".join(chunk(kind, data) for kind, data in parts)


def words_of(png):
    """The texts of a PNG."""
    return dict(data.decode("latin-1").split("\0", 1) for kind, data in chunks(png) if kind == b"tEXt")


def rows_of(png):
    """The width of a PNG of eight bits, and its rows, each of whose points is three numbers."""
    found = [*chunks(png)]
    width, _, _, kind = struct.unpack(">IIBB", found[0][1][:10])
    palette = next((data for name, data in found if name == b"PLTE"), b"")
    size, raw = KINDS[kind], zlib.decompress(b"".join(data for name, data in found if name == b"IDAT"))
    rows, before, length = [], bytes(width * size), width * size
    for at in range(0, len(raw), length + 1):
        before = unfiltered(raw[at], raw[at + 1 : at + 1 + length], before, size)
        rows.append([palette[3 * it : 3 * it + 3] if kind == 3 else before[size * place : size * place + 3] for place, it in enumerate(before[::size])])
    return width, rows


def unfiltered(how, line, before, size):
    """The bytes of a row of a PNG, whose differences to the bytes on the left and above are given."""
    if how == 0:
        return line
    out = bytearray(line)
    for place, it in enumerate(line):
        left = out[place - size] if place >= size else 0
        above, corner = before[place], before[place - size] if place >= size else 0
        if how == 1:
            more = left
        elif how == 2:
            more = above
        elif how == 3:
            more = (left + above) // 2
        else:
            more = min((abs(above - corner), 0, left), (abs(left - corner), 1, above), (abs(left + above - 2 * corner), 2, corner))[2]
        out[place] = (it + more) & 255
    return bytes(out)


def squares(png):
    """The mean colour of each square of a picture, by the place of the square."""
    width, rows = rows_of(png)
    found = {}
    for top in range(0, len(rows), SQUARE):
        for left in range(0, width, SQUARE):
            points = [point for row in rows[top : top + SQUARE] for point in row[left : left + SQUARE]]
            found[left, top] = [sum(point[colour] for point in points) / len(points) for colour in range(3)]
    return found


def differing(png, other):
    """The squares in which two pictures differ."""
    own, others = squares(png), squares(other)
    if own.keys() != others.keys():
        return ["the size"]
    return [it for it in own if max(abs(one - two) for one, two in zip(own[it], others[it])) > MOST_DIFFERENCE]


def main():
    if not browser():
        print("Chromium is missing here: the picture is not drawn")
        return 1
    made = page()
    drawn = screen(made)
    # A picture that shows the same stays as it is, and is told anew of which page it is.
    is_same = SHOWN.exists() and not differing(SHOWN.read_bytes(), drawn)
    words = {"page": identity(made), "placed": json.dumps(placed(made))}
    SHOWN.write_bytes(with_words(SHOWN.read_bytes() if is_same else drawn, words))
    return 0


if __name__ == "__main__":
    sys.exit(main())
