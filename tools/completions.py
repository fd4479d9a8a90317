"""Completions of `dlmsfw` for bash, zsh and fish, made from the texts in docs/help.txt."""

import pathlib
import re

TEXTS = pathlib.Path(__file__).resolve().parent.parent / "docs" / "help.txt"
# What stands in the help for a value that is a file or a folder.
FILES = ("FILE", "LIST", "CAPTURE", "KEYS", "BOOK", "FOLDER", "OUT", "EVENTS", "METRICS")


class Option:
    """An option as the short help has it."""

    def __init__(self, letter, name, value, text):
        forms = re.search(r" \[possible values: (.*?)\]", text)
        self.names = [*([f"-{letter}"] if letter else []), f"--{name}"]
        self.name, self.letter, self.value = name, letter, value
        self.forms = forms[1].split(", ") if forms else []
        self.is_file = value in FILES
        # (the parser refuses any other option if it is given twice)
        self.is_repeated = "once for each" in text
        self.text = re.sub(r" \[.*", "", text)


class Help:
    """The commands of the help, each with what it does, its options, and whether a file stands alone in it."""

    def __init__(self, texts):
        parts = re.split(r"^== (.*)\n", texts, flags=re.M)
        texts = dict(zip(parts[1::2], parts[2::2]))
        listed = re.search(r"^Commands:\n(.*?)\n\n", texts["--help"], re.M | re.S)[1]
        self.commands = {name: in_a_line(text) for name, text in re.findall(r"^  (\S+) +(.*(?:\n {4,}.*)*)$", listed, re.M)}
        self.own = options_of(texts["--help"])
        self.options = {it: options_of(texts[f"{it} -h"]) for it in self.commands if it != "help"}
        self.takes_file = {it: f"\n  [{FILES[2]}]\n" in texts[f"{it} -h"] for it in self.options}


def in_a_line(text):
    """A text of the help in one line."""
    return " ".join(text.split())


def options_of(text):
    """The options of a short help. The text of one stands behind it, or on the lines below it."""
    found = re.findall(r"^ +(?:-(\w), )?--([a-z-]+)(?: <(\S+)>)?(?:  +|\n {10})(.*(?:\n {10}.*)*)$", text, re.M)
    return [Option(letter, name, value, in_a_line(told)) for letter, name, value, told in found]


def names_of(options):
    """The names of options, in one text."""
    return " ".join(name for it in options for name in it.names)


def quoted(text):
    """A text as a word of a shell."""
    return "'" + text.replace("'", "'\\''") + "'"


def bash(texts):
    """The completion for bash."""
    help_ = Help(texts)
    lines = []
    for command, options in help_.options.items():
        for it in options:
            if it.is_file:
                lines.append(f"{command}:--{it.name}) files=yes ;;")
            elif it.forms:
                lines.append(f"{command}:--{it.name}) words={quoted(' '.join(it.forms))} ;;")
            elif it.value:
                lines.append(f"{command}:--{it.name}) ;;")
    for command, options in help_.options.items():
        file = " files=yes" if help_.takes_file[command] else ""
        lines.append(f"{command}:*) words={quoted(names_of(options))}{file} ;;")
    own = f"{' '.join(help_.commands)} {names_of(help_.own)}"
    cases = "\n".join(f"    {line}" for line in lines)
    return f"""\
# Completion of dlmsfw for bash, made from its help.
_dlmsfw() {{
    local word=$2 before=$3 words= files=
    # (bash takes `--option=value` for three words)
    [[ $before != = ]] || before=${{COMP_WORDS[COMP_CWORD - 2]}}
    [[ $word != = ]] || before=${{COMP_WORDS[COMP_CWORD - 1]}} word=
    if ((COMP_CWORD == 1)); then before=; else before=${{COMP_WORDS[1]}}:$before; fi
    case $before in
    '') words={quoted(own)} ;;
    help:help) words={quoted(' '.join(help_.options))} ;;
{cases}
    esac
    [[ -z $files || $word == -* ]] || compopt -o filenames
    mapfile -t COMPREPLY < <(
        [[ -z $files || $word == -* ]] || compgen -f -- "$word"
        [[ -z $words || (-n $files && $word != -*) ]] || compgen -W "$words" -- "$word"
    )
}}
complete -F _dlmsfw dlmsfw
"""


def zsh(texts):
    """The completion for zsh."""
    help_ = Help(texts)

    def escaped(text):
        return re.sub(r"([\[\]:\\])", r"\\\1", text)

    def spec(it):
        """An option as `_arguments` takes it."""
        if not it.value:
            ends = "(- *)" if it.letter else ""
            return " ".join(quoted(f"{ends}{name}[{escaped(it.text)}]") for name in it.names)
        action = "_files" if it.is_file else f"({' '.join(it.forms)})" if it.forms else ""
        repeated = "*" if it.is_repeated else ""
        return quoted(f"{repeated}--{it.name}=[{escaped(it.text)}]:{escaped(it.value)}:{action}")

    def case(command, options):
        specs = [spec(it) for it in options] + (["'1:CAPTURE:_files'"] if help_.takes_file[command] else [])
        return f"    {command})\n        _arguments \\\n" + " \\\n".join(f"            {it}" for it in specs) + "\n        ;;\n"

    commands = "\n".join(f"        {quoted(f'{name}:{escaped(text)}')}" for name, text in help_.commands.items())
    cases = "".join(case(*it) for it in help_.options.items())
    return f"""\
#compdef dlmsfw
# Completion of dlmsfw for zsh, made from its help.
_dlmsfw() {{
    local curcontext=$curcontext context state state_descr line
    typeset -A opt_args
    local -a commands=(
{commands}
    )
    _arguments -C {' '.join(spec(it) for it in help_.own)} '1:command:->commands' '*::word:->words'
    case $state in
    commands) _describe command commands && return ;;
    words) ;;
    *) return ;;
    esac
    case $words[1] in
    help)
        _arguments '1:command:({' '.join(help_.options)})'
        ;;
{cases}    esac
}}
_dlmsfw "$@"
"""


def fish(texts):
    """The completion for fish."""
    help_ = Help(texts)

    def line(condition, words, text):
        return f"complete -c dlmsfw -n {quoted(condition)} {words} -d {quoted(text)}"

    def words(it):
        """An option as `complete` takes it."""
        value = "-r -F" if it.is_file else f"-x -a {quoted(' '.join(it.forms))}" if it.forms else "-x" if it.value else ""
        return " ".join(filter(None, [f"-s {it.letter}" if it.letter else "", f"-l {it.name}", value]))

    lines = [line("__fish_use_subcommand", f"-a {name}", text) for name, text in help_.commands.items()]
    lines += [line("__fish_use_subcommand", words(it), it.text) for it in help_.own]
    lines.append(line("__fish_seen_subcommand_from help", f"-a {quoted(' '.join(help_.options))}", "A command"))
    for command, options in help_.options.items():
        seen = f"__fish_seen_subcommand_from {command}"
        lines += [line(seen, words(it), it.text) for it in options]
        lines += [line(seen, "-F", "The file that has the capture")] if help_.takes_file[command] else []
    return "# Completion of dlmsfw for fish, made from its help.\ncomplete -c dlmsfw -f\n" + "\n".join(lines) + "\n"


# The completion for each shell.
SHELLS = {"bash": bash, "zsh": zsh, "fish": fish}
