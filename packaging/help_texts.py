"""What `--help` of a program says, read as commands, options and texts. Man pages and completions are made of this, and so no
option stands in them that the program doesn't know."""
import re
from collections import namedtuple

# A program: its name, what it is for, how it is used, its commands, the options that it takes without one, and the texts at the end.
Program = namedtuple("Program", "name about usage commands options texts")
Command = namedtuple("Command", "name about usage arguments options")
# An option: its spellings, the one with a letter first; the name of its value, or None; whether it may stand without; what it does.
Option = namedtuple("Option", "spellings value is_optional does")

SECTION = re.compile(r"(?:Commands|Arguments|Options):\n")
# The first line of an entry: its head, and maybe what it does, two spaces behind it. Further lines stand further in.
ENTRY = re.compile(r"^ {2}(?: {4}(?=--))?(\S(?:.*?\S)?)(?: {2,}(\S.*))?$")
SPELLING = re.compile(r"--?[\w-]+")
VALUE = re.compile(r"(\[?)[ =]*<([^>]+)>")
OTHERS = re.compile(r" *\[alias(?:es)?: ([^\]]*)\]$")
# Names of values of which the program knows all, and how it lists them where another one is given.
CHOICES = {"LEVEL", "HOW", "GROUP", "CASE", "WHEN", "WHETHER"}
CHOSEN = re.compile(r"\[possible values: ([^\]]*)\]")


def entries(text):
    """The entries of a section: of each the head, and what it does in one line."""
    found = []
    for line in text.splitlines():
        begins = ENTRY.match(line.rstrip())
        if begins:
            found.append((begins[1], [begins[2] or ""]))
        else:
            found[-1][1].append(line.strip())
    return [(head, " ".join(lines).strip()) for head, lines in found]


def option_of(head, does):
    value, others = VALUE.search(head), OTHERS.search(does)
    spellings = SPELLING.findall(head[: value.start()] if value else head)
    spellings += others[1].split(", ") if others else []
    return Option(spellings, value and value[2], bool(value and value[1]), OTHERS.sub("", does))


def parts_of(text):
    """What a text of help begins with, how the program is used, its sections by their names, and the texts behind them."""
    about, _, rest = text.partition("Usage: ")
    usage, *parts = rest.strip().split("\n\n")
    sections = {it.partition(":")[0]: entries(it.partition("\n")[2]) for it in parts if SECTION.match(it)}
    return " ".join(about.split()), " ".join(usage.split()), sections, [it for it in parts if not SECTION.match(it)]


def options_of(sections):
    return [option_of(*it) for it in sections.get("Options", [])]


def program_of(name, ask):
    """A program as its help describes it; `ask` returns what the program prints for some words."""
    about, usage, sections, texts = parts_of(ask(["--help"]))
    commands = []
    for command, _ in sections["Commands"]:
        if command != "help":
            does, used, inner, _ = parts_of(ask([command, "--help"]))
            commands.append(Command(command, does, used, inner.get("Arguments", []), options_of(inner)))
    return Program(name, about, usage, commands, options_of(sections), texts)


def choices_of(program, ask_wrong):
    """The values of options of which there are few, by the option; `ask_wrong` returns what is said of wrong words."""
    found = {}
    for command in program.commands:
        for option in command.options:
            name = option.spellings[-1]
            if option.value in CHOICES and name not in found:
                said = CHOSEN.search(ask_wrong([command.name, f"{name}=?"]))
                found.update({it: said[1].split(", ") for it in option.spellings if said})
    return found


def by_commands(program):
    """The options of all commands, each once, by the names of the commands that have it with the same text."""
    found = {}
    for command in program.commands:
        for option in command.options:
            key = (tuple(option.spellings), option.value, option.is_optional, option.does)
            found.setdefault(key, (option, []))[1].append(command.name)
    groups = {}
    for option, names in found.values():
        groups.setdefault(tuple(names), []).append(option)
    return groups
