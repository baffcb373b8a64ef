#!/usr/bin/env python3
"""Makes pages of the documents for juries, for the page: each in HTML, by cmark-gfm. A link to a file that is not among them is left out, and its
words stay. A program has a link that opens it in the page. usage: documents.py FOLDER TO"""
import html
import re
import subprocess
import sys
from pathlib import Path
from urllib.parse import quote

# The documents, each with the words of the link to it. What has none is only reached from another.
NAMES = {
    "TUTORIAL": "Tutorial",
    "LANGUAGE": "Language",
    "COOKBOOK": "Cookbook",
    "MIGRATION": "Migration",
    "INTEGRATION": "Scripts and packages",
    "DESIGN": None,
}
PAGE = """<!doctype html>
<html lang="en">
<meta charset="utf-8">
<meta name="viewport" content="width=device-width, initial-scale=1">
<meta name="color-scheme" content="light dark">
<title>{title}</title>
<link rel="icon" href="data:,">
<link rel="stylesheet" href="../style.css">
<header>
<a class="brand" href="../index.html">checktestdata</a>
<nav aria-label="Documents">
{links}
</nav>
</header>
<main class="document">
{text}</main>
</html>
"""
HEADING = re.compile(r"<h([1-6])>(.*?)</h\1>")
LINK = re.compile(r'<a href="([^"]*)">(.*?)</a>', re.S)
PROGRAM = re.compile(r'<pre><code class="language-ctd">(.*?)</code></pre>', re.S)
TAG = re.compile(r"<[^>]*>")


def with_mark(heading: re.Match[str]) -> str:
    """A heading with the name by which links reach it."""
    words = html.unescape(TAG.sub("", heading[2])).strip().lower()
    mark = re.sub(r"[^\w\- ]", "", words).replace(" ", "-")
    return f'<h{heading[1]} id="{mark}">{heading[2]}</h{heading[1]}>'


def in_the_page(link: re.Match[str]) -> str:
    """A link to another of these pages or to the web, or its words alone."""
    name, at, mark = link[1].partition("#")
    if not name or "://" in name:
        return link[0]
    if name.removesuffix(".md") not in NAMES:
        return link[2]
    return f'<a href="{name.removesuffix(".md")}.html{at}{mark}">{link[2]}</a>'


def with_opener(program: re.Match[str]) -> str:
    """A program, with a link that opens it."""
    text = quote(html.unescape(program[1]).removesuffix("\n"), safe="")
    return f'{program[0]}\n<p class="opener"><a href="../index.html#program={text}">Open in the page</a></p>'


def page_of(file: Path) -> str:
    written = subprocess.run(["cmark-gfm", "--unsafe", "-e", "table", file], capture_output=True, text=True, check=True).stdout
    text = PROGRAM.sub(with_opener, LINK.sub(in_the_page, HEADING.sub(with_mark, written)))
    here = {file.stem: ' aria-current="page"'}
    links = "\n".join(f'<a href="{name}.html"{here.get(name, "")}>{words}</a>' for name, words in NAMES.items() if words)
    title = html.unescape(TAG.sub("", re.search("<h1[^>]*>(.*?)</h1>", text)[1]))
    return PAGE.format(title=html.escape(title), links=links, text=text)


def main() -> None:
    folder, to = map(Path, sys.argv[1:])
    to.mkdir(parents=True, exist_ok=True)
    for name in NAMES:
        (to / f"{name}.html").write_text(page_of(folder / f"{name}.md"))


main()
