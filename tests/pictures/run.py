#!/usr/bin/env python3
"""Compares the tables of maps as pictures and as JSON with the same tables as text.

  tests/pictures/run.py PROGRAM [--write]

For each map of examples/: the picture is well-formed XML, has a band for each row of the text, with its class, addresses and entry,
and a gap for each other stretch, without overlaps; the JSON object has the same rows, and its stretches cover every byte.
docs/example-host.svg is the picture of examples/example-host.map; `--write` rewrites it. Readers with any kind of colour blindness
(Machado and others, 2009) can distinguish the colours of two permissions, and text on each is legible. If Chromium is installed, it
draws the picture, and a pixel of each band must have the band's colour.
The last line is 'N passed, M failed'; any failure makes the status 1.
"""
import itertools
import json
import re
import shutil
import struct
import subprocess
import sys
import tempfile
import xml.etree.ElementTree as ElementTree
import zlib
from pathlib import Path

ROOT = Path(__file__).resolve().parents[2]
PROGRAM = str(Path(sys.argv[1]).resolve())
SVG = "{http://www.w3.org/2000/svg}"
WORDS = {"---": "none", "r--": "r", "rw-": "rw", "--x": "x", "r-x": "rx", "rwx": "rwx"}
ROW = re.compile(r"0x([0-9a-f]{16}) 0x([0-9a-f]{16}) +(>?\d+(?:\.\d)? \w+)  (\S{3})  (\d+)(?: \(before (.*)\))?")
BLIND = {
    "nobody": [[1, 0, 0], [0, 1, 0], [0, 0, 1]],
    "protanopia": [[0.152286, 1.052583, -0.204868], [0.114503, 0.786281, 0.099216], [-0.003882, -0.048116, 1.051998]],
    "deuteranopia": [[0.367322, 0.860646, -0.227968], [0.280085, 0.672501, 0.047413], [-0.011820, 0.042940, 0.968881]],
    "tritanopia": [[1.255528, -0.076749, -0.178779], [-0.078411, 0.930809, 0.147602], [0.004733, 0.691367, 0.303900]],
}
counts = [0, 0]


def note(good, what):
    counts[0 if good else 1] += 1
    print(("ok: " if good else "FAILED: ") + what)


def show(path, *more):
    return subprocess.run([PROGRAM, "show", path, *more], cwd=ROOT, capture_output=True, check=True).stdout


def linear(channel):
    value = channel / 255
    return value / 12.92 if value <= 0.04045 else ((value + 0.055) / 1.055) ** 2.4


def lab(rgb):
    x, y, z = (sum(m * c for m, c in zip(row, rgb)) for row in (
        (0.4124564 / 0.95047, 0.3575761 / 0.95047, 0.1804375 / 0.95047),
        (0.2126729, 0.7151522, 0.0721750),
        (0.0193339 / 1.08883, 0.1191920 / 1.08883, 0.9503041 / 1.08883)))
    x, y, z = (t ** (1 / 3) if t > 0.008856 else 7.787 * t + 16 / 116 for t in (x, y, z))
    return 116 * y - 16, 500 * (x - y), 200 * (y - z)


def colours_of(style):
    found = dict(re.findall(r"\.(none|r|rw|x|rx|rwx) \{ fill: #([0-9a-f]{6}) \}", style))
    return {name: tuple(bytes.fromhex(it)) for name, it in found.items()}


def check_colours(colours):
    note(len(colours) == 6, "a colour for each permission")
    for who, matrix in BLIND.items():
        seen = {}
        for name, rgb in colours.items():
            light = [linear(it) for it in rgb]
            seen[name] = lab([min(1, max(0, sum(m * c for m, c in zip(row, light)))) for row in matrix])
        least = min(sum((a - b) ** 2 for a, b in zip(seen[p], seen[q])) ** 0.5 for p, q in itertools.combinations(seen, 2))
        note(least >= 12, f"colours apart for {who}: {least:.0f}")
    darkest = min(0.2126 * linear(r) + 0.7152 * linear(g) + 0.0722 * linear(b) for r, g, b in colours.values())
    note((darkest + 0.05) / 0.05 >= 4.5, "black text on each colour")


def check_json(name, path, rows):
    table = json.loads(show(path, "--format", "json"))
    ends = [(int(it["first"], 16), int(it["last"], 16)) for it in table["stretches"]]
    whole = ends[0][0] == 0 and ends[-1][1] == 2**56 - 1 and all(a[1] + 1 == b[0] for a, b in zip(ends, ends[1:]))
    note(whole, f"{name}: the stretches are the space")
    same = [it for it in table["stretches"] if it["entry"] is not None]
    good = len(same) == len(rows) and table["fits"] == (table["count"] <= table["limit"])
    for it, (first, last, _, perm, entry, before) in zip(same, rows):
        said = [int(n) for n in before.split(", ") if n != ".."] if before else []
        good = good and (it["first"], it["last"]) == ("0x" + first, "0x" + last) and it["perm"] == WORDS[perm]
        good = good and it["entry"] == int(entry) and it["overridden"][:2] == said
    note(good, f"{name}: JSON has the rows of the text")
    return len(ends) - len(same)


def bands_of(svg):
    """Returns the class and the box of each band."""
    return [(it.get("class"), *(int(it.get(key)) for key in ("x", "y", "width", "height")))
            for it in svg.iter(SVG + "rect") if it.get("y") is not None]


def check_picture(name, svg, rows, gaps):
    bands = bands_of(svg)
    places = [it.text for it in svg.iter(SVG + "text") if it.get("class") == "at"]
    beside = [" ".join(it.text.split()) for it in svg.iter(SVG + "text") if it.get("x") == "404"]
    good = [it[0] for it in bands] == [WORDS[it[3]] for it in rows]
    good = good and places == [it for row in rows for it in ("0x" + row[0], "0x" + row[1])]
    good = good and beside == ["entry " + row[4] + (f" (before {row[5]})" if row[5] else "") for row in rows]
    note(good, f"{name}: a band for each row")
    marks = [int(it.get("y")) for it in svg.iter(SVG + "use")]
    note(len(marks) == gaps, f"{name}: a gap for each other stretch")
    boxes = sorted([(y, y + height) for _, _, y, _, height in bands] + [(y, y + 34) for y in marks])
    ordered = all(a[1] == b[0] for a, b in zip(boxes, boxes[1:])) and boxes[-1][1] < int(svg.get("height"))
    note(ordered, f"{name}: one below the other")


def pixels_of(png):
    """Returns the rows of a PNG with eight bits per channel, each as a list of colours."""
    at, data, width, channels = 8, b"", 0, 0
    while at < len(png):
        size, kind = struct.unpack(">I4s", png[at:at + 8])
        body = png[at + 8:at + 8 + size]
        if kind == b"IHDR":
            width, _, depth, colour, _, _, laced = struct.unpack(">IIBBBBB", body)
            assert depth == 8 and laced == 0
            channels = {2: 3, 6: 4}[colour]
        if kind == b"IDAT":
            data += body
        at += size + 12
    data, rows, last = zlib.decompress(data), [], bytearray(width * channels)
    for begin in range(0, len(data), width * channels + 1):
        kind, line = data[begin], bytearray(data[begin + 1:begin + 1 + width * channels])
        for i in range(len(line)):
            left, up = line[i - channels] if i >= channels else 0, last[i]
            corner = last[i - channels] if i >= channels else 0
            if kind == 4:
                near = [abs(up - corner), abs(left - corner), abs(left + up - 2 * corner)]
                paeth = left if near[0] <= near[1] and near[0] <= near[2] else up if near[1] <= near[2] else corner
            line[i] = (line[i] + (0, left, up, (left + up) // 2, paeth if kind == 4 else 0)[kind]) % 256
        rows.append([tuple(line[i:i + 3]) for i in range(0, len(line), channels)])
        last = line
    return rows


def check_drawn(browser, name, text, svg, colours):
    with tempfile.TemporaryDirectory() as folder:
        (Path(folder) / "picture.svg").write_bytes(text)
        words = [browser, "--headless", "--no-sandbox", "--disable-gpu", "--hide-scrollbars", f"--user-data-dir={folder}/user",
                 f"--screenshot={folder}/picture.png", f"--window-size=680,{svg.get('height')}", f"file://{folder}/picture.svg"]
        subprocess.run(words, capture_output=True, timeout=120)
        drawn = Path(folder) / "picture.png"
        if not drawn.exists():
            note(False, f"{name}: the browser draws it")
            return
        rows = pixels_of(drawn.read_bytes())
    good = all(rows[y + 4][x + 4] == colours[perm] for perm, x, y, _, _ in bands_of(svg))
    note(good, f"{name}: drawn in its colours")
    note(rows[2][2] == (255, 255, 255), f"{name}: on white")


def main():
    host = show("examples/example-host.map", "--format", "svg")
    kept = ROOT / "docs" / "example-host.svg"
    if "--write" in sys.argv[2:]:
        kept.write_bytes(host)
    note(kept.exists() and kept.read_bytes() == host, "docs/example-host.svg is what the program prints")
    colours = colours_of(host.decode())
    check_colours(colours)
    browser = next((it for it in map(shutil.which, ("chromium", "chromium-browser", "google-chrome")) if it), None)
    for path in sorted(ROOT.glob("examples/**/*.map")):
        name = str(path.relative_to(ROOT))
        rows = ROW.findall(show(name).decode())
        gaps = check_json(name, name, rows)
        text = show(name, "--format", "svg")
        svg = ElementTree.fromstring(text)
        check_picture(name, svg, rows, gaps)
        if browser and path.name in ("example-host.map", "hifive-unmatched.map"):
            check_drawn(browser, name, text, svg, colours)
    if not browser:
        print("left out: no browser is installed that draws pictures")
    print(f"{counts[0]} passed, {counts[1]} failed")
    sys.exit(1 if counts[1] else 0)


main()
