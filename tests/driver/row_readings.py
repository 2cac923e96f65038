"""The texts of the rows, read in all ways, and their orders by the keys.

Each text of the rows is read as one list, one by one and by cursors in each encoding, with digits as digits and as numbers, and
all come to the same elements. Each order of two texts is that of their keys as well.
"""
from driver import numbers, text
from random_texts import from_utf8, from_utf16
from row_questions import bars, encoded, made_by, order_of
from tables import tables_of

# The files of rows with texts, and where in a row the texts stand.
TEXTS = {"order.txt": slice(2, 4), "keys.txt": slice(2, 3), "elements.txt": slice(2, 3), "matches.txt": slice(2, 3)}


def characters_of(encoding, units):
    """What units in an encoding say."""
    if encoding == "8":
        return from_utf8(bytes(units))
    if encoding == "16":
        return from_utf16(units)
    return "".join(map(chr, units))


def ways(encoding, units):
    """A text in its own encoding, and what it says in each other one."""
    said = characters_of(encoding, units)
    found = {it: text(it, said) for it in ("c", "8", "16")}
    if not said or max(said) <= "\xFF":
        found["1"] = text("1", said)
    return " , ".join({**found, encoding: text(encoding, units)}.values())


def readings(rows):
    """The tables of rows, by what makes them, and the questions that read their texts in all ways."""
    found, made = {}, {}
    for name, every, lines in rows:
        for line in lines:
            parts = [it.strip() for it in line.split("|")]
            if parts[0] not in made:
                made[parts[0]] = tuple(tables_of(every, parts[0]).questions())
            asked = found.setdefault(made[parts[0]], {})
            for it in parts[TEXTS[name]]:
                written = ways(*encoded(it))
                asked.update({f"readings {numeric} {written}": it for numeric in (0, 1)})
    return found


def wrong_readings(driver, found):
    """The texts that aren't read alike in all ways, and how many were read."""
    asked = [question for made, some in found.items() for question in [*made, *some]]
    faults, count = [], 0
    for question, answer in zip(asked, driver.ask(asked)):
        if question.startswith("readings "):
            count += 1
            faults += [f"{question[:200]}: {answer[:200]}"] * (" / " in answer or "?" in answer)
        else:
            faults += [f"{question[:80]}: {answer}"] * (answer != "ok")
    return faults, count


def keys_of(driver, every, lines):
    """The rows of two texts, each with the keys of both."""
    rows, asked = [bars(it, 5) for it in lines], []
    for tables, named, left, right, _ in rows:
        asked += [*made_by(every, tables, named), *(f"key {text(*encoded(it))}" for it in (as_keyed(left), as_keyed(right)))]
    keys = iter(numbers(answer) for question, answer in zip(asked, driver.ask(asked)) if question.startswith("key "))
    return [(row, next(keys), next(keys)) for row in rows]


def wrong_orders(keyed):
    """The rows of two texts whose keys are in another order than the row says."""
    found = [(row, order_of(left, right)) for row, left, right in keyed]
    return [f"{' | '.join(row)}, but {order} by keys" for row, order in found if order != row[-1]]


def as_keyed(notation):
    """A text in an encoding of which keys are written: what a text in Latin-1 says is given as UTF-16, unit by unit."""
    return notation.replace("latin1", "utf16", 1) if notation.startswith("latin1") else notation


class OtherText:
    """A driver that reads other units where a text is in UTF-16."""

    def __init__(self, driver):
        self.driver = driver

    def ask(self, questions):
        return self.driver.ask(it.replace(" , 16 ", " , 16 62 ") for it in questions)


def check_row_readings(report, driver, every, lines_of):
    """Reads the texts of all rows. `lines_of` gives the rows of a file."""
    rows = [(name, every, [*lines_of(name)]) for name in TEXTS]
    found = readings(rows)
    faults, count = wrong_readings(driver, found)
    report.say("rows: each text is read alike in all ways", faults, count)
    faults, count = wrong_readings(OtherText(driver), readings(rows[-1:]))
    report.say("rows: a text that is read as another is found", ["too few"] * (len(faults) < count // 2), count)
    keyed = keys_of(driver, every, rows[0][2])
    report.say("rows: each order is that of the keys", wrong_orders(keyed), len(keyed))
    turned = [(row, right, left) for row, left, right in keyed]
    wanted = sum(row[-1] != "Equal" for row, _, _ in keyed)
    missed = ["too few"] * (len(wrong_orders(turned)) != wanted)
    report.say("rows: an order that isn't that of the keys is found", missed, wanted)
