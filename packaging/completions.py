"""Completions for bash, zsh and fish, of what `--help` says: the commands, the options of each, and the values of which there are few."""
import shlex

from table_sets import SUFFIX, TABLES

# Names of values that are files or folders, or tags of languages.
FILES, FOLDERS, TAGS = {"FILE", "OUT", "F", "ROOT"}, {"DIR"}, {"TAG", "LOCALE"}


def first_words(text):
    """What something does, as far as one line has room."""
    short = text.partition(";")[0].partition(":")[0]
    return short if len(short) <= 70 else short[:67].rpartition(" ")[0] + " .."


def kind_of(option, choices):
    """What the value of an option is: `files`, `folders`, `tags`, `tables`, `text`, or a list of values."""
    if option.spellings[-1] == "--tables":
        return "tables"
    named = {**dict.fromkeys(FILES, "files"), **dict.fromkeys(FOLDERS, "folders"), **dict.fromkeys(TAGS, "tags")}
    return choices.get(option.spellings[-1]) or named.get(option.value, "text")


def function_name(program):
    return "_" + program.name.replace("-", "_")


def head(program):
    return f"# Completion of {program.name}; bin/install made it of what --help says."


# ---- bash

BASH = """{head}

{function}() {{
  local current=${{COMP_WORDS[COMP_CWORD]}} option=${{COMP_WORDS[COMP_CWORD - 1]}} command= options= values= word
  # The shell takes = for a word of its own.
  if [ "$current" = = ]; then
    current= option+==
  elif [ "$option" = = ]; then
    option=${{COMP_WORDS[COMP_CWORD - 2]}}=
  fi
  for word in "${{COMP_WORDS[@]:1:COMP_CWORD - 1}}"; do
    case $word in
      {commands})
        command=$word
        break
        ;;
    esac
  done
  case $command in
{arms}
  esac
  case $values in
    files) mapfile -t COMPREPLY < <(compgen -f -- "$current") ;;
    folders) mapfile -t COMPREPLY < <(compgen -d -- "$current") ;;
    tables)
      word=$(type -P {name})
      mapfile -t COMPREPLY < <(compgen -f -- "$current"; compgen -G "${{word%/bin/*}}/{folder}/$current*{suffix}")
      ;;
    text) COMPREPLY=() ;;
    ?*) mapfile -t COMPREPLY < <(compgen -W "$values" -- "$current") ;;
    *)
      if [[ $current == -* ]]; then
        mapfile -t COMPREPLY < <(compgen -W "$options" -- "$current")
      elif [ -z "$command" ]; then
        mapfile -t COMPREPLY < <(compgen -W "{commands_alone}" -- "$current")
      else
        mapfile -t COMPREPLY < <(compgen -f -- "$current")
      fi
      ;;
  esac
}}

complete -o filenames -F {function} {name}
"""


def bash_arm(pattern, options, choices, tags):
    """What a command takes: its options, and the values of the one before the word that is completed."""
    by_value = {}
    for option in options:
        if option.value:
            kind = kind_of(option, choices)
            words = kind if isinstance(kind, str) and kind != "tags" else " ".join(tags if kind == "tags" else kind)
            by_value.setdefault(words, []).extend(bash_patterns(option))
    spellings = " ".join(it for option in options for it in option.spellings)
    values = [f'        {" | ".join(patterns)}) values="{words}" ;;' for words, patterns in by_value.items()]
    return "\n".join([f"    {pattern})", f'      options="{spellings}"', "      case $option in", *values, "      esac", "      ;;"])


def bash_patterns(option):
    """How an option stands before its value: a value that may be left out stands behind =, and after a letter there is none."""
    for it in option.spellings:
        if not option.is_optional:
            yield it
        if it.startswith("--"):
            yield f"{it}="


def bash(program, choices, tags):
    names = [it.name for it in program.commands]
    arms = [bash_arm(it.name, it.options, choices, tags) for it in program.commands]
    arms.append(bash_arm("*", program.options, choices, tags))
    return BASH.format(head=head(program), function=function_name(program), name=program.name, commands=" | ".join(names), arms="\n".join(arms),
                       commands_alone=" ".join(names), folder=TABLES, suffix=SUFFIX)


# ---- zsh

ZSH = """#compdef {name}
{head}

{function}-languages() {{
  local -a languages=({tags})
  _describe -t languages language languages
}}

{function}-tables() {{
  _files
  compadd -f -- ${{commands[{name}]:h:h}}/{folder}/*{suffix}(N)
}}

{functions}
{function}() {{
  local -a names=(
{names}
  )
  local curcontext=$curcontext context state state_descr line
  local -A opt_args
  _arguments -C -S {without} '1: :->command' '*:: :->words'
  case $state in
    command) _describe -t commands command names ;;
    words) (( $+functions[{function}-$words[1]] )) && {function}-$words[1] ;;
  esac
}}

{function} "$@"
"""
ZSH_VALUES = {"files": "_files", "folders": "_files -/", "text": " "}


def zsh_option(option, program, choices):
    """An option for `_arguments`, once for each of its spellings."""
    kind, does = kind_of(option, choices), first_words(option.does).replace("[", "\\[").replace("]", "\\]")
    for it in option.spellings:
        joint = value = ""
        if option.value and (it.startswith("--") or not option.is_optional):
            how = {**ZSH_VALUES, "tags": f"{function_name(program)}-languages", "tables": f"{function_name(program)}-tables"}
            joint = "=-" if option.is_optional else "=" if it.startswith("--") else "+"
            value = f"{':' * (1 + option.is_optional)}{option.value}:{how[kind] if isinstance(kind, str) else '(' + ' '.join(kind) + ')'}"
        yield shlex.quote(f"*{it}{joint}[{does}]{value}")


def zsh_options(options, program, choices):
    return " ".join(it for option in options for it in zsh_option(option, program, choices))


def zsh(program, choices, tags):
    function = function_name(program)
    functions = []
    for command in program.commands:
        given = zsh_options(command.options, program, choices)
        functions.append(f"{function}-{command.name}() {{\n  _arguments -s -S {given} '*:file:_files'\n}}\n")
    names = [f"    {shlex.quote(it.name + ':' + first_words(it.about))}" for it in program.commands]
    return ZSH.format(head=head(program), name=program.name, function=function, tags=" ".join(tags), functions="\n".join(functions),
                      names="\n".join(names), without=zsh_options(program.options, program, choices), folder=TABLES, suffix=SUFFIX)


# ---- fish


def fish_value(kind, tags):
    """What stands behind an option of fish for its value: whether files may, and what else."""
    if kind == "tables":
        return f" -r -F -a '(ls (dirname (dirname (command -s collate-cldr)))/{TABLES}/*{SUFFIX} 2>/dev/null)'"
    if kind in ("files", "folders"):
        return " -r -F" if kind == "files" else " -x -a '(__fish_complete_directories)'"
    words = tags if kind == "tags" else [] if kind == "text" else kind
    return f" -x -a {shlex.quote(' '.join(words))}" if words else " -x"


def fish_option(program, option, condition, choices, tags):
    names = "".join(f" -{'l ' + it[2:] if it.startswith('--') else 's ' + it[1:]}" for it in option.spellings)
    value = fish_value(kind_of(option, choices), tags) if option.value and not option.is_optional else ""
    if option.is_optional:
        value = f" -f -a {shlex.quote(' '.join(choices.get(option.spellings[-1], [])))}"
    return f"complete -c {program.name} -n {shlex.quote(condition)}{names}{value} -d {shlex.quote(first_words(option.does))}"


def fish(program, choices, tags):
    lines = [head(program), ""]
    names = " ".join(it.name for it in program.commands)
    none = f"not __fish_seen_subcommand_from {names}"
    for it in program.commands:
        lines.append(f"complete -c {program.name} -n {shlex.quote(none)} -f -a {it.name} -d {shlex.quote(first_words(it.about))}")
    lines += [fish_option(program, it, none, choices, tags) for it in program.options]
    for command in program.commands:
        seen = f"__fish_seen_subcommand_from {command.name}"
        lines += [fish_option(program, it, seen, choices, tags) for it in command.options]
    return "\n".join(lines) + "\n"
