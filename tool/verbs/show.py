"""Shows the topology of a case, and the way of packets through it."""

from __future__ import annotations

import shutil
import subprocess
from argparse import Namespace

from tool import files, show
from tool.routes import route
from tool.trouble import UNAVAILABLE, Trouble
from tool.verbs import Parser
from tool.verbs.words import read_case


def add_words(parser: Parser) -> None:
    """Adds the words that the command takes."""
    parser.add_argument("case", metavar="CASE")
    kinds = parser.add_mutually_exclusive_group()
    kinds.add_argument("--svg", metavar="SVG", help="draw it to a file, by Graphviz")
    kinds.add_argument("--dot", action="store_true", help="print it in Graphviz's language")
    route_help = "the way of a packet, as from h0 to c3; in a drawing its arrows are red"
    parser.add_argument("--route", nargs=2, metavar=("FROM", "TO"), help=route_help)


def run(words: Namespace) -> int:
    """Shows the topology or the way."""
    document = read_case(words.case)
    way = route(document, *words.route) if words.route else []
    if words.svg:
        return draw(show.dot_lines(document, way), words.svg, words.case)
    if words.dot:
        files.write_lines(show.dot_lines(document, way))
    elif words.route:
        files.write_lines(show.route_lines(way, *words.route))
    else:
        files.write_lines(show.text_lines(document))
    return 0


def draw(lines: list[str], name: str, case: str) -> int:
    """Draws a graph to a file by Graphviz."""
    files.refuse_inputs(name, [case])
    if shutil.which("dot") is None:
        raise Trouble(UNAVAILABLE, "Graphviz's dot is not there: apt-get install graphviz")
    text = "\n".join(lines).encode()
    drawn = subprocess.run(["dot", "-Tsvg"], input=text, stdout=subprocess.PIPE, check=False)
    if drawn.returncode:
        raise Trouble(UNAVAILABLE, f"dot ended with status {drawn.returncode}")
    with files.written(name, [case]) as sink:
        sink.write(drawn.stdout)
    return 0
