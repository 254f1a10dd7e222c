"""Reads Markdown pages: tables, headings and links. Also finds the sources that the pages describe."""

import functools
import re

from lib.serving import ROOT

LINK = re.compile(r"!?\[[^\]]*\]\(([^()\s]+)\)")
CODE = re.compile(r"`[^`\n]*`")


def pages():
    """Returns README.md and all pages of docs/."""
    return [ROOT / "README.md", *sorted((ROOT / "docs").glob("*.md"))]


@functools.cache
def prose_of(file):
    """Returns the lines of a page outside code blocks."""
    lines, is_inside = [], False
    for line in file.read_text().splitlines():
        if line.lstrip().startswith("```"):
            is_inside = not is_inside
        elif not is_inside and not line.startswith("    "):
            lines.append(line)
    return lines


def cells_of(line):
    """Returns the cells of a table row."""
    return [cell.strip() for cell in line.strip().strip("|").split("|")]


def tables_of(file):
    """Returns the tables of a page. Each is a list of rows of cells, with the titles first."""
    found, rows = [], []
    for line in [*prose_of(file), ""]:
        if line.startswith("|"):
            rows.append(cells_of(line))
        elif rows:
            found.append([row for row in rows if not all(set(cell) <= set("-:") for cell in row)])
            rows = []
    return found


def table_of(file, *titles):
    """Returns the cells below these titles in the only table that has them, row by row. The titles may be in any order
    and letter case, among others."""
    found = []
    for head, *rows in tables_of(file):
        names = [title.lower() for title in head]
        if {title.lower() for title in titles} <= set(names):
            places = [names.index(title.lower()) for title in titles]
            found.append([[row[place] for place in places] for row in rows])
    if len(found) != 1:
        raise AssertionError(f"{file.name} has {len(found)} tables with the titles {', '.join(titles)}")
    return found[0]


def anchor_of(heading):
    """Returns the anchor that GitHub gives a heading."""
    text = LINK.sub(lambda match: match[0].rpartition("](")[0].lstrip("!["), heading).strip().lower()
    return re.sub(r"[^\w\- ]", "", text).replace(" ", "-")


@functools.cache
def anchors_of(file):
    """Returns the anchors of a page. A repeated heading gets a number from its second occurrence on."""
    found = {}
    for line in prose_of(file):
        match = re.match(r"#{1,6} +(.*?)(?: +#+)?$", line)
        if match:
            anchor = anchor_of(match[1])
            count = found.setdefault(anchor, 0)
            found[anchor] += 1
            if count:
                found[f"{anchor}-{count}"] = 1
    return set(found)


def links_of(file):
    """Returns the link targets of a page, outside code."""
    return [target for line in prose_of(file) for target in LINK.findall(CODE.sub("", line))]


def source_with(text):
    """Returns the text of the only source of the crates that contains this text."""
    sources = [file.read_text() for file in sorted((ROOT / "crates").glob("*/src/**/*.rt"))]
    found = [source for source in sources if text in source]
    if len(found) != 1:
        raise AssertionError(f"{len(found)} sources contain {text!r}")
    return found[0]
