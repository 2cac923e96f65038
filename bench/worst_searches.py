#!/usr/bin/env python3
"""Looks for searches that take longest beside a key of the text, by the program that bench/run.py built.

usage: bench/worst_searches.py [--count N] [--seed N] [--length N] [--rounds N] [--show N] [--root FILE] [--folder FOLDER]

--count N        how many searches are tried (300)
--seed N         the seed of patterns and texts (1)
--length N       how many characters each text has (500)
--rounds N       how often each is measured; the least time counts (3)
--show N         how many of the worst are printed (20)
--root FILE      FractionalUCA.txt of CLDR
--folder FOLDER  where bench/run.py keeps the program (collation-bench in the user's cache)

Texts are a piece of few letters, marks, hyphens and digits, again and again; patterns are parts of such a text, some with another last
letter. Strength, shifted variable elements and numbers are drawn too. Prints the ratio of the time of a search to that of a key.
"""
import argparse
import os
import random

import building
import corpus
import run

LETTERS = ["a", "b", "A", "-", " ", "\u0301", "\u0323", "\u00e1", "1", "\u1100", "\u1161", "\uac00", "l", "\u0020", "\u4e00", "\u200b"]
STRENGTHS = ("primary", "secondary", "tertiary", "quaternary")


def drawn(dice, length):
    """A text and a pattern."""
    letters = dice.sample(LETTERS, dice.randint(1, 3))
    piece = "".join(dice.choice(letters) for _ in range(dice.randint(1, 12)))
    text = corpus.repeated(piece, length)
    start = dice.randrange(len(piece))
    pattern = text[start : start + dice.choice((1, 2, 3, 8, 20, 60))]
    if dice.random() < 0.6:
        pattern += dice.choice(letters + ["b", "\u0301"])
    return text, pattern


def rows(words):
    dice = random.Random(words.seed)
    for _ in range(words.count):
        text, pattern = drawn(dice, words.length)
        settings = corpus.Settings(dice.randrange(4), dice.randrange(4) // 3, dice.randrange(2))
        how = f"{STRENGTHS[settings.strength]}{', shifted' * settings.shifted}{', numeric' * settings.numeric}"
        pairs = lambda pattern=pattern, text=text: [(pattern, text)]
        yield corpus.Row("worst", corpus.BESIDE_KEYS, f"{ascii(pattern)} in {ascii(text[:24])}.., {how}", 3.0, settings, pairs)


def asked():
    parser = argparse.ArgumentParser(usage=__doc__.partition("usage: ")[2])
    for name, number in (("count", 300), ("seed", 1), ("length", 500), ("rounds", 3), ("show", 20)):
        parser.add_argument(f"--{name}", type=int, default=number)
    parser.add_argument("--root", default=run.ROOT)
    parser.add_argument("--folder", default=os.path.join(run.CACHE, "collation-bench"))
    return parser.parse_args()


def main():
    words = asked()
    folder = os.path.abspath(words.folder)
    program = os.path.join(folder, building.NAME)
    found = run.measured(program, os.path.join(folder, "worst"), list(rows(words)), words.rounds, words.root)
    found.sort(key=lambda it: -it.ratio())
    for it in found[: words.show]:
        print(f"{it.ratio():10,.1f} {it.library:10,.0f} ns  {it.row.name}")
    print(f"{sum(it.ratio() > 3 for it in found)} of {len(found)} above 3")


if __name__ == "__main__":
    main()
