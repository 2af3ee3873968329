"""Writes a random case. The same seed and the same words give the same case. With --count the cases
of so many seeds, from SEED on, are written to the folder that -o names."""

from __future__ import annotations

import os
from argparse import Namespace

from tool import aims, files, samples
from tool.nearest import nearest
from tool.points import Point, points
from tool.trouble import NO_OUTPUT, USAGE, Trouble
from tool.verbs import Parser

FEATURES = "; ".join(f"{name}: {text}" for name, text in samples.FEATURES.items())


def add_words(parser: Parser) -> None:
    """Adds the words that the command takes."""
    parser.add_argument("seed", type=int, metavar="SEED")
    parser.add_argument("-o", dest="output", metavar="CASE", help="write it to a file, or a folder")
    parser.add_argument("--count", type=int, metavar="N", help="write N cases")
    parser.add_argument("--cubes", type=int, default=0, choices=range(1, 9), metavar="1..8")
    parser.add_argument("--hosts", type=int, default=0, choices=range(1, 9), metavar="1..8")
    parser.add_argument("--requests", type=int, default=0, metavar="N")
    parser.add_argument("--shape", choices=samples.SHAPES, default="")
    feature_help = f"those wanted, with commas between; else they are drawn. {FEATURES}"
    wishes = parser.add_mutually_exclusive_group()
    wishes.add_argument("--features", metavar="NAMES", help=feature_help)
    aim_help = "draw cases that reach a point, which is named as by cover"
    wishes.add_argument("--aim", metavar="POINT", help=aim_help)


def run(words: Namespace) -> int:
    """Writes the case or the cases."""
    wish = wish_of(words)
    if words.count is None:
        files.write_lines(samples.sample(words.seed, wish).splitlines(), words.output)
        return 0
    if files.is_standard(words.output):
        raise Trouble(USAGE, "--count needs -o and a folder")
    try:
        os.makedirs(words.output, exist_ok=True)
    except OSError as error:
        raise Trouble(NO_OUTPUT, f"cannot write {words.output}: {error.strerror}") from error
    for seed in range(words.seed, words.seed + words.count):
        path = os.path.join(words.output, f"case-{seed:04}.toml")
        files.write_lines(samples.sample(seed, wish).splitlines(), path)
    return 0


def wish_of(words: Namespace) -> samples.Wish:
    """The sizes and features that the words ask for."""
    if words.aim is not None:
        if words.cubes or words.hosts or words.requests or words.shape:
            raise Trouble(USAGE, "--aim chooses the sizes and the shape")
        return aims.aimed(point_of(words.aim))
    features = None if words.features is None else named(words.features)
    unknown = [name for name in features or () if name not in samples.FEATURES]
    if unknown:
        raise Trouble(USAGE, f"{unknown[0]} is not a feature: {', '.join(samples.FEATURES)} are")
    is_ring = words.shape == "ring" and words.cubes > 2
    ports = 4 * words.cubes - 2 * (words.cubes - 1) - 2 * is_ring
    if words.shape == "star" and words.cubes > 4:
        raise Trouble(USAGE, "a star has at most 4 cubes: a cube has four ports, one for host 0")
    if words.hosts and (not words.cubes or words.hosts > ports):
        need = "name --cubes too" if not words.cubes else f"so many cubes have {ports} free ports"
        raise Trouble(USAGE, f"{words.hosts} hosts: {need}")
    return samples.Wish(words.cubes, words.hosts, words.requests, words.shape, features)


def named(text: str) -> tuple[str, ...]:
    """The names that have commas between them."""
    return tuple(sorted(name for name in text.split(",") if name))


def point_of(text: str) -> Point:
    """The point with this group and name, which samples reach."""
    group, _, name = text.partition(" ")
    point = Point(group, name)
    names = [" ".join(it) for it, _ in points()]
    if text not in names:
        near = nearest(text, names)
        raise Trouble(USAGE, f"{text} is no point of cover{near and f': do you mean {near}?'}")
    if point in aims.NOT_DRAWN:
        raise Trouble(USAGE, f"no sample reaches {text}: {aims.NOT_DRAWN[point]}")
    return point
