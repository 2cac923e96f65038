"""Indexes of many names, of long ones, of damaged and of equal ones, and long keys in lists: what no row can write.

Names are of lower-case letters, which Mini orders as their code points are, or spell U+FFFD, whose primary weight is above theirs.
So Python's own order of the texts that names spell is the order that is wanted, and its sort keeps equal names as they came.
"""
import random
import re

from driver import text, written
from row_questions import HELD, LISTS, UNNAMED, Case, listing, six

LETTERS = "abcdefghijklmnopqrstuvwxyz"
# How many bytes a key has that is longer than a deque's first rooms, whichever they are.
KEY = 70_000
MADE = ["base Mini", f"make 2 {six(UNNAMED[1:])}"]
OF_PRIMARIES = ["base Mini", f"make 0 {six(UNNAMED[1:])}"]


def spelt(name):
    return name.decode("utf-8", "replace")


def listed(names):
    """An index of names, in the order of what they spell."""
    asked = f"names {' , '.join(text('8', list(it)) for it in names)}"
    return Case(MADE, [asked], [listing(sorted(names, key=spelt))])


def equal_to(name, names):
    """The names of an index that are equal to a name."""
    asked = f"equals {' , '.join(text('8', list(it)) for it in [name, *names])}"
    return Case(MADE, [asked], [listing([it for it in names if spelt(it) == spelt(name)])])


def between(low, high, names):
    """The names of an index from one name on, and before another."""
    asked = f"between {' , '.join(text('8', list(it)) for it in [low, high, *names])}"
    return Case(MADE, [asked], [listing(sorted((it for it in names if spelt(low) <= spelt(it) < spelt(high)), key=spelt))])


def unlike(count):
    """So many different names, in no order."""
    dice, found = random.Random(count), set()
    while len(found) < count:
        found.add("".join(dice.choice(LETTERS) for _ in range(dice.randrange(1, 5))).encode())
    names = sorted(found)
    dice.shuffle(names)
    return names


def damaged(count):
    """So many names with a byte in them that begins or goes on with a character and is no part of one."""
    dice = random.Random(count)
    pick = lambda: "".join(dice.choice("abc") for _ in range(dice.randrange(3))).encode()
    return [pick() + bytes([dice.choice([0x80, 0xC3, 0xE2, 0xF0, 0xFF])]) + pick() for _ in range(count)]


def of_two_letters(count):
    """So many names of two letters, nine different ones."""
    return [("abc"[number % 3] + "abc"[number // 3 % 3]).encode() for number in range(count)]


def equivalent(count):
    """So many names that compare Equal, spelt in two ways in turn, which are listed as they were inserted."""
    names = [["\xE1", "a\u0301"][number % 3 == 1].encode() for number in range(count)]
    asked = [f"{what} {' , '.join(text('8', list(it)) for it in some)}" for what, some in
             [("names", names), ("equals", [b"a\xCC\x81", *names])]]
    return Case(MADE, asked, 2 * [listing(names)])


def long_key():
    """A key of `KEY` bytes behind a byte in each kind of list: a lead byte, and a byte for each letter."""
    letters = (LETTERS * KEY)[: KEY - 1]
    key = [0x61, *(0x10 + 4 * LETTERS.index(it) for it in letters)]
    asked = [f"list {kind} {text('c', letters)}" for kind in LISTS]
    return Case(OF_PRIMARIES, asked, len(asked) * [written([HELD, *key])])


def cases():
    """The cases, by what they are about."""
    long = [b"a" * 1_999 + b"b", b"a" * 2_000, b"b", b"a" * 1_999, b"a" * 2_000]
    some, torn, more = unlike(200), damaged(30), unlike(5_000)
    return {
        "200 different names": listed(some),
        "200 different names, ascending": listed(sorted(some)),
        "200 different names, descending": listed(sorted(some, reverse=True)),
        "a name that no name of 200 equals": equal_to(b"zzzzz", some),
        "a name that no name of 200 equals, amid them": equal_to(sorted(some)[99] + b"aaaa", some),
        "the one name of 200 that a name equals": equal_to(some[7], some),
        "names of 2,000 bytes": listed(long),
        "names of 2,000 bytes that are equal": equal_to(long[1], long),
        "a name of 2,000 bytes that no name equals": equal_to(b"a" * 1_998 + b"b", long),
        "30 damaged names": listed(torn),
        "the damaged names that a damaged one equals": equal_to(torn[0], torn),
        "5,000 different names": listed(more),
        "5,000 different names, ascending": listed(sorted(more)),
        "the names between two of 5,000": between(sorted(more)[700], sorted(more)[4_100], more),
        "the names between two near ones of 5,000": between(sorted(more)[2_000], sorted(more)[2_003], more),
        "the names between two of 5,000 that are turned": between(sorted(more)[4_100], sorted(more)[700], more),
        "10,000 names": listed(of_two_letters(10_000)),
        "the 1,111 names that a name equals": equal_to(b"ab", of_two_letters(10_000)),
        "40,000 equal names": equivalent(40_000),
        "a key of 70,000 bytes in lists": long_key(),
    }


# ---- faults that are planted in the answers


def turned(answer):
    count, colon, names = answer.partition(" : ")
    return count + colon + " , ".join(reversed(names.split(" , ")))


def without_one(answer):
    """A listing that has lost the last of its names."""
    count, _, names = answer.partition(" : ")
    return f"{int(count, 16) - 1:X} : {names.rpartition(' , ')[0]}"


def more_than(most, spoil):
    """A fault that only shows in an answer of more than so many numbers or names."""
    return lambda answer: spoil(answer) if len(answer.split()) > most else answer


# What is wrong, which cases have to find it, of which questions, and what becomes of their answers.
PLANTED = [
    ("a name found that there isn't", "a name that no name of 200 equals", "equals", lambda it: "1 : 7A"),
    ("a name found that is near", "a name that no name of 200 equals, amid them", "equals", lambda it: "1 : 61"),
    ("no name found", "the one name of 200 that a name equals", "equals", lambda it: "0 : "),
    ("a name lost of more than 100", "200 different names", "names", more_than(100, without_one)),
    ("names left as they came", "200 different names, descending", "names", turned),
    ("a name cut at 1,024 bytes", "names of 2,000 bytes", "names", lambda it: it.replace("61*7D0", "61*400")),
    ("long names called equal", "a name of 2,000 bytes that no name equals", "equals", lambda it: "1 : 61*7CF"),
    ("damaged names put first", "30 damaged names", "names", turned),
    ("a damaged name mended", "30 damaged names", "names", lambda it: it.replace("FF", "EF BF BD")),
    ("the last name of a range lost", "the names between two of 5,000", "between", without_one),
    ("a name lost of more than 1,000", "5,000 different names", "names", more_than(1_000, without_one)),
    ("equal names turned", "40,000 equal names", "names", turned),
    ("a name lost of more than 20,000", "40,000 equal names", "names", more_than(20_000, without_one)),
    ("a deque that turns round", "a key of 70,000 bytes in lists", "list deque",
     more_than(65_536, lambda it: " ".join(it.split()[65_536:] + it.split()[:65_536]))),
]


def missed(driver):
    """The planted faults that the cases let through."""
    every, found = cases(), []
    for what, name, pattern, spoil in PLANTED:
        case = every[name]
        questions = case.questions()
        answers = driver.ask(questions)
        wrong = [spoil(answer) if re.match(pattern, it) else answer for it, answer in zip(questions, answers)]
        found += [f"not found: {what}"] * (not case.holds(answers) or case.holds(wrong))
    return found
