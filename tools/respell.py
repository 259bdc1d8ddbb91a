#!/usr/bin/env python3
"""Respells this repository's own definitions, lemmas and fields of records in snake case.

    python3 tools/respell.py        at the top of the repository, once, after the kit's port.py

It goes by whole names, in the .antt and .rt files, where only clauses and ghost lines have them, and between backticks
in the pages. Functions of src/ keep their names.
"""
import pathlib
import re

NAMES = """
inRange
accepted-more all-before all-is all-last all-scores answer-is are-scores-parts areScores below-product
bit-none bit-one both-take by-scores cast-back chartRefusal count-few count-is count-push countIn countScore
declined-at excess-within far-score first-takes first-test floored-below from-left-lawful from-left-push
fromLeft front-is gaugeScore gauges-within gaugesFault hasRoom head-is inOrder isRising isScore join-requires
join-word-requires last-push last-seen lastScores latest-is latestAbove leaf-lawful leastUnit leastUnit-is
leavesOf look-answered look-below look-beside lookBack lookBackRefusal lookBeside looked-is looked-opposite
looks-join mark-is mark-one marked-below marks-count marks-low marks-push measureFault measureScore million-is
more-is near-score nearestScore nearestUp nearestUp-is neg-neg never-refused next-below next-is none-alarm
none-outside none-past not-ok off-above off-below on-scale onSheet ones-all ones-push opposite-append
opposite-checked opposite-length opposite-score opposite-scores opposite-twice outcome-is page-lawful
pageFault pair-lawful pair-look-below pair-next-below pair-restarts pair-sized pair-start-below
pair-word-below pairStart pairWord part-alarms parts-length parts-score parts-scores quiet-before quiet-first
quiet-second quiet-turned quiet-whole read-flipped read-push read-scores rounded-cast rounded-to-zero
row-alone row-push row-split rule-lawful run-below run-push run-tracks run-turned runs-lawful runsFault
score-far score-near score-passes score-turned score-within scores-are scores-length scores-more
scores-of-none scores-stop scores-turned scoresOf second-of second-takes second-test seen-alarm seen-ended
seen-full seen-score seen-within settingRefusal settled-below shewhart-lawful shewhartFault shift-on
shift-sums signedBy size-answered size-beside size-there sizeBeside sizeOf sized-first sized-second snoc-ind
sourceRefusal sourceSettingRefusal split-last start-below started-is state-below state-fits state-is
state-none states-is states-of statesOf step-answered step-beside stepBeside stepped-is stepped-ok steps-fit
steps-join tail-is total-push total-within totalAt trailingParts turned-lawful twice-low walk-lawful walkFault
whole-quiet withinRange word-alone word-at-last word-is words-join work-is written-more zero-value zone-within
zoneScore zs-are
""".split()


def respelled(name):
    return re.sub(r"([a-z0-9])([A-Z])", lambda m: m[1] + "_" + m[2].lower(), name).replace("-", "_")


# a lemma on a definition of the same words
LEMMAS = {"look-beside", "size-beside", "states-of", "step-beside"}

NEW = {name: respelled(name) + ("_lem" if name in LEMMAS else "") for name in NAMES}
# a name of antt may hold letters, digits, `_`, `-` and `'`
NAME = re.compile(r"(?<![\w\-'])(%s)(?![\w\-'])" % "|".join(map(re.escape, sorted(NAMES, key=len, reverse=True))))


def turn(text):
    return NAME.sub(lambda m: NEW[m[0]], text)


def turn_page(text):
    return re.sub(r"`[^`\n]*`", lambda m: turn(m[0]), text)


def main():
    top = pathlib.Path(".")
    files = [(path, turn) for kind in ("*.antt", "*.rt") for path in sorted(top.glob("crates/*/**/" + kind))]
    files += [(path, turn_page) for path in sorted(top.glob("docs/*.md")) + [top / "README.md"]]
    for path, how in files:
        if "out" in path.parts:
            continue
        old = path.read_text(encoding="utf-8")
        new = how(old)
        if new != old:
            path.write_text(new, encoding="utf-8")


if __name__ == "__main__":
    main()
