"""Each allocation of the driver refused in turn: questions by part (tests/driver/refusals), and how much is allocated for a call.

The driver asks once more where an allocation failed, over the same tables and collators. So a run in which one allocation fails
gives the answers of a run in which none does: the call that failed left its values as they were, and the same collator compares
again. One in which each fails from some place on gives a beginning of the answers, says `no memory`, and ends with status 1.
"""
import os
import re

from sweeps import TESTS, TOP, Refused, faults_of, is_beginning, run, sweep, tried

PARTS = ["collators", "comparisons", "keys", "elements", "sinks", "names", "files"]
NO_MEMORY = b"no memory\n"
# The tables that a refused collator names as one allocation after another fails: tables are copied in the order in which they are
# loaded, the check after that is named by the root, and so are the characters that rows name, which come last.
OF_MINI = ["Root", "Jamo", "SpecialPrimaries", "Diacritics"]
OF_SWAPPED_LEADS = ["Root", "Jamo", "SpecialPrimaries", "Tailoring", "Reordering", "Diacritics"]
NAMED_TABLES = 2 * OF_MINI + 2 * OF_SWAPPED_LEADS + ["Root"]


def questions_of(part):
    """The questions of a part, and the answer that is wanted to each."""
    with open(os.path.join(TESTS, "driver", "refusals", f"{part}.txt"), encoding="utf-8") as it:
        lines = [line.rstrip("\n") for line in it]
    return [tuple(it.strip() for it in line.split("|")) for line in lines if line and not line.startswith("#")]


def given_by(questions):
    """Questions as a run is given them: (65 301)*2710 in one is 65 301 so many times, by a hexadecimal number, and `TOP/` is
    where the repository stands."""
    repeat = lambda found: " ".join([found[1]] * int(found[2], 16))
    full = [re.sub(r"\(([^)]*)\)\*([0-9A-F]+)", repeat, it.replace("TOP/", f"{TOP}/")) for it in questions]
    return "".join(f"{it}\n" for it in full).encode()


def holds(answer, wanted):
    """Whether an answer is the one that is wanted, or has as many members as that says."""
    counted = re.fullmatch(r"(\d+) (bytes|elements|numbers)", wanted)
    if not counted:
        return answer == wanted
    members = [int(word.partition("*")[2] or "1", 16) for word in answer.split()]
    return "?" not in answer and sum(members) == int(counted[1])


def wrong_answers(ran, asked):
    """What is wrong with the answers of a run without a refusal."""
    answers = ran.output.decode().split("\n")[:-1]
    if (ran.status, ran.faults) != (0, b"") or len(answers) != len(asked):
        return [f"{len(answers)} answers to {len(asked)} questions: {ran}"]
    brief = lambda text: text if len(text) < 80 else f"{text[:60]} .."
    return [
        f"{brief(question)}: {brief(answer)}; wanted: {wanted}"
        for (question, wanted), answer in zip(asked, answers)
        if not holds(answer, wanted)
    ]


def driver_is_right(plain, refused, ran):
    """Whether the driver did right: it makes each refused call again, so that its answers are those without a refusal; where that
    is refused too, it stops and says so."""
    if refused.also_after:
        is_said = ran.status == 1 and ran.faults.endswith(NO_MEMORY)
        return is_said and ran.output != plain.output and is_beginning(ran.output, plain.output)
    return (ran.status, ran.output) == (plain.status, plain.output)


def named_tables(outcomes):
    """The tables that the runs with one refused allocation name, each run of equal ones once."""
    said = [it.ran.faults.decode() for it in outcomes if it.ran and it.refused and not it.refused.also_after]
    names = [line.partition("refused: ")[2] for text in said for line in text.splitlines() if line.startswith("refused: ")]
    return [name for at, name in enumerate(names) if at == 0 or name != names[at - 1]]


# ---- how much is allocated

# How often a call is made in the two runs whose allocations are compared.
ONCE, MORE = 1, 5
DIGITS = "31*2710"
# Two texts in the encodings of each of the five calls. Their characters are ASCII.
FIVE_CALLS = [("c", "c"), ("8", "8"), ("16", "16"), ("1", "1"), ("1", "16")]


def by_five_calls(left, right, order):
    return [(f"compare {mine} {left} , {other} {right}", order) for mine, other in FIVE_CALLS]


# Names with accents and in Hangul, and how they are ordered: by their first letters, though a mark that comes before theirs
# follows them; by a primary weight, a secondary one, a tertiary one; not at all; by a primary weight of the last syllable.
NAMES = [
    ("E1 323", "E9 323", "Less"),
    ("72 E9 73 75 6D E9 73", "72 E9 73 75 6D E9", "Greater"),
    ("72 65 73 75 6D 65", "72 E9 73 75 6D E9", "Less"),
    ("52 E9 73 75 6D E9", "72 E9 73 75 6D E9", "Greater"),
    ("72 E9 73 75 6D E9", "72 65 301 73 75 6D 65 301", "Equal"),
    ("D55C AE00", "1112 1161 11AB 1100 1173 11AF", "Equal"),
    ("D55C AD6D", "D55C AE00", "Less"),
]
# The names whose keys are written, and how long these are at the strength Tertiary.
NAME_KEYS = [(left, length) for (left, _, _), length in zip(NAMES[1:], [18, 13, 17, 16, 19, 19])]
NUMERIC, TERTIARY = "make FF FF FF FF FF 1", "make 2 FF FF FF FF FF"
# For what nothing is allocated, by a collator: questions, and the answers or their beginnings.
NOTHING_FOR = [
    ("texts that are the same", NUMERIC, by_five_calls(DIGITS, DIGITS, "Equal")),
    ("ends that differ in their first letters", NUMERIC, by_five_calls("62", "63", "Less")),
    ("the same behind a common beginning of digits", NUMERIC, by_five_calls(f"{DIGITS} 62", f"{DIGITS} 63", "Less")),
    ("names", TERTIARY, [(f"compare c {left} , c {right}", order) for left, right, order in NAMES]),
    ("keys of names", TERTIARY, [(f"slice 64 c {name}", f"ok {length:X} : ") for name, length in NAME_KEYS]),
    ("syllables", TERTIARY, [
        ("compare c 61 AC01 61 , c 41 1100 1161 11A8 61", "Less"),
        ("compare c 61 AC01*3E8 61 , c 41 AC01*3E8 61", "Less"),
        ("compare 16 AC01*3E8 61 , 16 AC01*3E8 62", "Less"),
        ("compare 8 EA B0 81 61 , 8 EA B0 82 61", "Less"),
        ("slice 2000 c AC01*3E8", "ok "),
    ]),
]
# How many marks stand in one run of a text, and how many letters behind it.
MANY = 1_000


def of_pieces():
    """Calls on texts of which characters are read together: in few and in many, before few and many others."""
    letters, marks = f"61*{MANY:X}", f"301*{MANY:X}"
    return [
        ("compare c 62 E1 323 , c 62 1EA1", "Greater"),
        (f"compare c 62 E1 323 {letters} , c 62 1EA1 {letters} 62", "Less"),
        (f"compare 16 62 E1 323 {letters} 62 , 16 62 1EA1 {letters} 63", "Less"),
        (f"compare 8 62 C3 A1 CC A3 {letters} 62 , 8 62 E1 BA A1 {letters} 63", "Less"),
        (f"compare c E1 323 {letters} E1 323 , c 1EA1 {letters} 1EA1", "Greater"),
        (f"compare c 61 {marks} 323 62 , c 61 323 {marks} 63", "Less"),
    ]


# How many characters runs have: about as many as there is room for in an array, and more.
RUNS = [64, 65, 66, 1_023, 1_024, 1_025, 1_026, 1_500]
# Two marks, of which the second comes first in order, by the encodings of a text.
ACUTE_AND_DOT = {"c": ("301", "323"), "16": ("301", "323"), "8": ("CC 81", "CC A3")}


def of_runs():
    """Calls on texts that are a letter and marks: such as don't stand in order beside the same in order, and one mark less."""
    found = []
    for size in RUNS:
        for encoding, (acute, dot) in ACUTE_AND_DOT.items():
            above, below = [" ".join([it] * ((size - 1) // 2)) for it in (acute, dot)]
            last = f" {dot}" * (1 - size % 2)
            falling, rising = f"{encoding} 61 {above} {below}{last}", f"{encoding} 61 {below}{last} {above}"
            found += [(f"compare {falling} , {rising}", "Equal"), (f"compare {rising} {acute} , {falling}", "Greater")]
            found += [(f"compare {falling} , {rising} {dot}", "Less"), (f"compare {falling} 62 , {rising} 61", "Greater")]
    return found


def of_rows():
    """For each collator of the rows on comparisons without memory: the base, what makes it, and the questions with their answers."""
    found = []
    for question, wanted in questions_of("without_memory"):
        if question.startswith("base "):
            found.append([question, "", []])
        elif question.startswith("make "):
            found[-1][1] = question
        else:
            found[-1][2].append((question, wanted))
    return found


def allocated(shim, program, made, calls, base="base Mini"):
    """How much more is allocated where each call is made `MORE` times in place of once, and what is wrong with the answers."""
    counts, faults = [], []
    for times in (ONCE, MORE):
        asked = [base, made, f"times {times}", *(question for question, _ in calls)]
        ran = run(program, [], given_by(asked), shim=shim)
        answers = ran.output.decode().split("\n")[3:-1]
        right = len(answers) == len(calls) and all(it.startswith(wanted) for it, (_, wanted) in zip(answers, calls))
        faults += [] if right and (ran.status, ran.faults) == (0, b"") else [f"{times} times: {ran}"]
        counts.append(ran.counts["allocation"] if ran.counts else 0)
    return counts[1] - counts[0], faults


def faults_of_allocations(shim, program):
    """What is wrong with how much is allocated: no comparison allocates, and no key of these."""
    found = []
    of_all = [*NOTHING_FOR, ("pieces", TERTIARY, of_pieces()), ("runs of marks", TERTIARY, of_runs())]
    asked = [(what, "base Mini", made, calls) for what, made, calls in of_all]
    asked += [(f"rows of {base}, {made}", base, made, calls) for base, made, calls in of_rows()]
    for what, base, made, calls in asked:
        more, faults = allocated(shim, program, made, calls, base)
        found += faults + [f"{what}: {more} allocations in {MORE - ONCE} rounds of calls"] * (more != 0)
    # a key of four levels is held: what is counted here is seen
    more, faults = allocated(shim, program, TERTIARY, [(f"slice 2000 c E1*{MANY:X}", "ok ")])
    return found + faults + ["no allocation is seen for a long key"] * (more <= 0)


# ---- the checks, and a fault that is planted


def other_answers_missed(shim, program):
    """The refusals after which another answer is let through: the last question is another one in the runs with a refusal."""
    asked = [question for question, _ in questions_of("comparisons")[:3]]
    given, other = given_by(asked), given_by([*asked[:-1], "compare c 61 42 , c 61 62"])
    plain = run(program, [], given, shim=shim)
    if not plain.counts:
        return [f"no allocation was counted: {plain}"]
    places = range(1, 1 + plain.counts["allocation"], 3)
    outcomes = [tried(shim, program, [], other, plain, Refused("allocation", at), driver_is_right) for at in places]
    return [f"not found: {it.refused}" for it in outcomes if not it.fault] + ["too few"] * (len(outcomes) < 3)


def check_refusals(report, shim, program):
    """All checks of refused memory, by the driver that was built as this program."""
    for part in PARTS:
        asked = questions_of(part)
        given = given_by([question for question, _ in asked])
        outcomes = sweep(shim, program, [], given, ["allocation"], driver_is_right)
        faults = wrong_answers(run(program, [], given), asked) + faults_of(outcomes)
        report.say(f"refused memory: each allocation, {part}", faults, len(outcomes))
        if part == "collators":
            named = named_tables(outcomes)
            faults = [] if named == NAMED_TABLES else [f"{named}; wanted: {NAMED_TABLES}"]
            report.say("refused memory: the tables that refusals name", faults, len(outcomes))
    runs = 2 * (len(NOTHING_FOR) + len(of_rows()) + 2)
    report.say("refused memory: no comparison allocates, and no key of names and syllables", faults_of_allocations(shim, program), runs)
    report.say("refused memory: another answer after a refusal is found", other_answers_missed(shim, program), 1)
