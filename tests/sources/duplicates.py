"""Blocks of like lines, and lemmas that stand twice, over the sources of all crates, `.rt` and `.antt`; tests/sources/duplicates and tests/sources/house
list and count them.

Lines are compared without the space around them. Empty lines, comments, `use` lines and lines of brackets alone don't count, and
are passed over."""
import os
import re

TOP = os.path.dirname(os.path.dirname(os.path.dirname(os.path.realpath(__file__))))
CRATES = os.path.join(TOP, "crates")
# A block has so many lines at least.
LEAST = 6
PASSED_OVER = re.compile(r"^(?:|//.*|--.*|#\[.*\]|(?:pub |ghost )*use\b.*|[\[\](){}<>;,|]*)$")


def sources():
    for at, folders, files in os.walk(CRATES):
        folders[:] = sorted(it for it in folders if it != "out")
        yield from (os.path.join(at, it) for it in sorted(files) if it.endswith((".rt", ".antt")))


def counted_lines(path):
    """The lines that count, each with its number. A `use` of several lines is one."""
    kept, used = [], False
    with open(path, encoding="utf-8") as it:
        for number, line in enumerate(it, 1):
            line = re.sub(r"\s+", " ", line.strip())
            opens = re.match(r"^(?:pub |ghost )*use\b", line) is not None
            passed, used = used or opens, (used or opens) and not line.endswith(";") and path.endswith(".rt")
            if not passed and not PASSED_OVER.match(line):
                kept.append((number, line))
    return kept


def seeds(files, least):
    """Beginnings of so many like lines that stand at two places or more: lists of places, each a file and an index."""
    places = {}
    for file, lines in files.items():
        for index in range(len(lines) - least + 1):
            window = "\n".join(text for _, text in lines[index:index + least])
            places.setdefault(window, []).append((file, index))
    return [it for it in places.values() if len(it) > 1]


def following(files, places, count):
    """The line that follows so many lines at each place, or what none is."""
    return {files[file][index + count][1] if index + count < len(files[file]) else None for file, index in places}


def blocks(files, least=LEAST):
    """Blocks as long as all their places are alike: a count of lines, and the places. None lies within one that was found."""
    covered, found = set(), []
    for places in seeds(files, least):
        before = {files[file][index - 1][1] if index else None for file, index in places}
        if len(before) == 1 and None not in before:
            continue
        count = least
        while len(ahead := following(files, places, count)) == 1 and None not in ahead:
            count += 1
        inside = frozenset((file, index + n) for file, index in places for n in range(count))
        found.append((count, places, inside))
    for count, places, inside in sorted(found, key=lambda it: (-it[0], it[1])):
        if not inside <= covered:
            covered |= inside
            yield count, places


# A lemma of a proofs file: its name and its statement, which may go on over indented lines.
LEMMA = re.compile(r"(?m)^(?:pub )?([\w-]+) : ([^\n]*(?:\n +[^\n]*)*)")


def lemmas():
    """The statements of lemmas that stand in two files or more, word for word, each with its places."""
    stated = {}
    for path in sources():
        if path.endswith(".antt") and "/proofs/" in path:
            with open(path, encoding="utf-8") as it:
                for name, statement in LEMMA.findall(it.read()):
                    place = f"{os.path.relpath(path, CRATES)}: {name}"
                    stated.setdefault(re.sub(r"\s+", " ", statement), []).append(place)
    return {it: places for it, places in stated.items() if "→" in it and "goal." not in it and len(places) > 1}


def counted_files():
    """The lines that count of each file, by its path below `crates`."""
    return {os.path.relpath(it, CRATES): counted_lines(it) for it in sources()}


def listed(files, count, places):
    """A block, in lines: how long it is, how it begins, and where it stands."""
    begins = files[places[0][0]][places[0][1]][1][:90]
    where = [f"    {file}:{files[file][at][0]}-{files[file][at + count - 1][0]}" for file, at in places]
    return [f"{count} lines, {len(places)} places: {begins}", *where]
