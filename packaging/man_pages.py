"""Man pages: what `--help` says, and the sections of a page of docs that people need who have the program alone."""
import re

from help_texts import by_commands

# Sections of pages that are for people with a clone, and blocks of others in whose place stands what `--help` says.
LEFT_OUT = {"In a clone", "What is proved, and what isn't", "Costs"}
REPLACED = {"Commands": None, "Options": "table", "Examples": None}
MARKS = {"\\": "\\e", "-": "\\-", "^": "\\(ha", "~": "\\(ti", "`": "\\(ga"}
INLINE = re.compile(r"`([^`]+)`|\*\*([^*]+)\*\*|\[([^\]]*)\]\([^)]*\)")
# A link that stands alone in brackets says nothing without its target.
BARE_LINK = re.compile(r" \(\[[^\]]*\]\([^)]*\)\)")
# What begins a block of a page, and the kind of the block.
KINDS = [("code", re.compile(r" {4}")), ("table", re.compile(r"\|")), ("item", re.compile(r"- ")), ("heading", re.compile(r"### "))]
CELL = re.compile(r"(?<!\\)\|")


def plain(text):
    """A text that stands as it is."""
    text = "".join(MARKS.get(it, it) for it in text)
    return re.sub(r"(?m)^(?=[.'])", r"\\&", text)


def inline(text):
    """A text of a page, with its names in bold, and without the targets of its links."""
    made, at, text = "", 0, BARE_LINK.sub("", text)
    for found in INLINE.finditer(text):
        code, strong, link = found.groups()
        inner = inline(link) if link is not None else f"\\fB{plain(code or strong)}\\fP"
        made, at = made + plain(text[at : found.start()]) + inner, found.end()
    made += plain(text[at:])
    return made if not re.match(r"[.']", made) else f"\\&{made}"


def sections(page):
    """The sections of a page: their titles, and their lines."""
    parts = re.split(r"(?m)^## (.*)\n", page)[1:]
    return {title: text.strip("\n").split("\n") for title, text in zip(parts[::2], parts[1::2])}


def kind_of(line):
    return next((kind for kind, begins in KINDS if begins.match(line)), "text")


def blocks(lines):
    """The blocks of a section: their kinds, and their lines."""
    found, is_new = [], True
    for line in lines:
        kind = kind_of(line) if line.strip() else None
        if kind and (is_new or kind in ("item", "heading") or kind != found[-1][0]):
            found.append((kind, []))
        if kind:
            found[-1][1].append(line)
        is_new = kind is None
    return found


def rows(lines):
    """The cells of a table's rows, without its rule."""
    cells = [[it.strip().replace("\\|", "|") for it in CELL.split(line.strip().strip("|"))] for line in lines]
    return [cells[0], *cells[2:]]


def listing(lines):
    return [".PP", ".RS 4", ".EX", *map(plain, lines), ".EE", ".RE"]


def table(lines):
    """A narrow table as lines with columns, another one as a list: what the first column has, and the others behind it."""
    head, *body = rows(lines)
    cells = [[re.sub(r"[`*]", "", it) for it in row] for row in (head, *body)]
    widths = [max(map(len, column)) for column in zip(*cells)]
    if len(head) > 2 and sum(widths) + 2 * len(head) <= 70:
        return listing("  ".join(it.ljust(width) for it, width in zip(row, widths)).rstrip() for row in cells)
    texts = [(row[0], "; ".join(f"{title.lower()}: {it}" for title, it in zip(head[1:], row[1:])) if row[2:] else row[1]) for row in body]
    return [it for word, text in texts for it in (".TP", inline(word), inline(text))]


def block(kind, lines):
    """A block of a page in roff."""
    text = " ".join(it.strip() for it in lines)
    if kind == "code":
        return listing(it[4:] for it in lines)
    if kind == "table":
        return table(lines)
    if kind == "item":
        return [".IP \\(bu 2", inline(text[2:])]
    return [f'.SS "{inline(text[4:])}"'] if kind == "heading" else [".PP", inline(text)]


def section(title, page):
    """The blocks of a page's section that no text of `--help` replaces."""
    left = REPLACED.get(title)
    return [line for kind, lines in blocks(page.get(title, [])) if kind != left for line in block(kind, lines)]


def option_lines(option):
    """An option as `--strength=LEVEL`, and what it does."""
    value = option.value or ""
    shown = []
    for it in option.spellings:
        joint = "=" if it.startswith("--") else " "
        behind = f"[={value}]" if option.is_optional else f"{joint}{value}" if value else ""
        shown.append(f"\\fB{plain(it)}\\fP{plain(behind if it.startswith('--') or not option.is_optional else '')}")
    return [".TP", ", ".join(shown), plain(option.does) or "\\&"]


def command_lines(command):
    """A command, and what is said of its words."""
    words = [line for head, does in command.arguments if does for line in (".br", f"{plain(head)}: {plain(does)}")]
    return [".TP", f"\\fB{plain(command.name)}\\fP", plain(command.about), *words]


def of_commands(names, program):
    """What options are for, in words."""
    every = [it.name for it in program.commands]
    if list(names) == every:
        return "Options of all commands"
    lacking = [it for it in every if it not in names]
    if len(lacking) < 3:
        return f"Options of all commands but {' and '.join(lacking)}"
    return f"Options of {' and '.join([', '.join(names[:-1]), names[-1]] if names[1:] else names)}"


def options(program):
    made = []
    for names, found in sorted(by_commands(program).items(), key=lambda it: -len(it[0])):
        made += [f'.SS "{plain(of_commands(names, program))}"', *(line for it in found for line in option_lines(it))]
    return made + ['.SS "Options without a command"', *(line for it in program.options for line in option_lines(it))]


def closing(text):
    """A text at the end of help: a section with the title of its first word, or one with lines as they are."""
    title, _, rest = text.partition(":")
    text, lines = " ".join(rest.split()), [it[2:] for it in rest.strip("\n").split("\n")]
    return [f'.SH "{title.upper()}"', *(listing(lines) if rest.startswith("\n") else [plain(text[0].upper() + text[1:])])]


def closings(texts, examples):
    """The texts at the end of help; one without a title belongs to the one before it. More examples stand below those of help."""
    made = []
    for text in texts:
        made += closing(text) if re.match(r"[A-Z]\w*:", text) else [".PP", plain(" ".join(text.split()))]
        made += examples if text.startswith("Examples:") else []
    return made


def man_page(program, page, version, others):
    """The man page of a program."""
    page = sections(page)
    name = plain(program.name)
    about = program.about[0].lower() + program.about[1:].partition(":")[0].rstrip(".")
    lines = [f'.\\" Made by bin/install of what {program.name} --help says and of its page in docs.',
             f'.TH "{name.upper()}" 1 "" "collate {plain(version)}" "User Commands"', ".SH NAME", f"{name} \\- {plain(about)}", ".SH SYNOPSIS"]
    for usage in [*(it.usage for it in program.commands), program.usage]:
        lines += [f"\\fB{name}\\fP{plain(usage[len(program.name):])}", ".br"]
    lines += [".SH DESCRIPTION", plain(program.about), ".SH COMMANDS"]
    lines += [line for it in program.commands for line in command_lines(it)]
    lines += [*section("Commands", page), ".SH OPTIONS", *options(program)]
    lines += [".PP", *section("Options", page)] if "Options" in page else []
    for title in page:
        if title not in LEFT_OUT and title not in REPLACED:
            lines += [f'.SH "{inline(title).upper()}"', *section(title, page)]
    lines += [*closings(program.texts, section("Examples", page)), '.SH "SEE ALSO"', ", ".join(f"\\fB{plain(it)}\\fP(1)" for it in [*others, "sort", "locale"])]
    return "\n".join(it for it in lines if it) + "\n"
