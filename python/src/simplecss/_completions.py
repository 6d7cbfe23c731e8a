"""Completions of shells for the command line, made of its parser."""

from __future__ import annotations

import argparse
import shlex
from typing import Callable, Dict, Iterator, List, NamedTuple, Sequence

# What options name that take a file or a folder.
_PATHS = ("PATH",)


class _Option(NamedTuple):
    """An option: its forms, what it is, and what is after it."""

    forms: Sequence[str]
    text: str
    takes_value: bool
    choices: Sequence[str]
    is_path: bool


class _Command(NamedTuple):
    """A command: its name, what it does, its options, and words that it takes besides files."""

    name: str
    text: str
    options: List[_Option]
    words: Sequence[str]


def _options_of(parser: argparse.ArgumentParser) -> Iterator[_Option]:
    """Yields the options of a parser."""
    for action in parser._actions:
        if action.option_strings:
            takes_value = action.nargs != 0
            choices = list(map(str, action.choices or ()))
            is_path = takes_value and action.metavar in _PATHS
            yield _Option(action.option_strings, action.help or "", takes_value, choices, is_path)


def _commands_of(parser: argparse.ArgumentParser) -> Iterator[_Command]:
    """Yields the commands of a parser."""
    for action in parser._actions:
        if isinstance(action, argparse._SubParsersAction):
            texts = {each.dest: each.help or "" for each in action._choices_actions}
            for name, command in action.choices.items():
                plain = [each for each in command._actions if not each.option_strings]
                words = [str(word) for each in plain for word in each.choices or ()]
                yield _Command(name, texts.get(name, ""), list(_options_of(command)), words)


def _bash(parser: argparse.ArgumentParser) -> str:
    commands = list(_commands_of(parser))
    names = " ".join(each.name for each in commands)
    front = " ".join(form for each in _options_of(parser) for form in each.forms)
    values = []
    for command in commands:
        for option in command.options:
            if option.takes_value and not option.is_path:
                place = "|".join(f"{command.name}/{form}" for form in option.forms)
                words = shlex.quote(" ".join(option.choices))
                values.append(
                    f'        {place}) COMPREPLY=($(compgen -W {words} -- "$word")); return ;;'
                )
    listed = [
        f"        {each.name}) words={shlex.quote(' '.join(_words_of(each)))} ;;"
        for each in commands
    ]
    plain = [each.name for each in commands if each.words]
    return "\n".join(
        [
            "# Completion of bash for simplecss: source it in ~/.bashrc.",
            "_simplecss() {",
            "    local word=${COMP_WORDS[COMP_CWORD]} before=${COMP_WORDS[COMP_CWORD-1]}",
            "    local command= words= each",
            '    for each in "${COMP_WORDS[@]:1:COMP_CWORD-1}"; do',
            f"        case $each in {names.replace(' ', '|')}) command=$each; break ;; esac",
            "    done",
            "    case $command/$before in",
            *values,
            "    esac",
            "    case $command in",
            f"        '') words={shlex.quote(f'{names} {front}')} ;;",
            *listed,
            "    esac",
            f"    if [[ -z $command || $word == -* || \" {' '.join(plain)} \" == *\" $command \"* ]]; then",
            '        COMPREPLY=($(compgen -W "$words" -- "$word"))',
            "    else",
            "        compopt -o filenames 2>/dev/null",
            '        COMPREPLY=($(compgen -f -- "$word"))',
            "    fi",
            "}",
            "complete -F _simplecss simplecss",
            "",
        ]
    )


def _words_of(command: _Command) -> List[str]:
    """Returns the words of a command that are no files."""
    return [*command.words, *(form for each in command.options for form in each.forms)]


def _in_zsh(text: str) -> str:
    """Returns a text as a description of zsh."""
    for each in "\\[]:":
        text = text.replace(each, "\\" + each)
    return text.replace("`", "")


def _zsh(parser: argparse.ArgumentParser) -> str:
    commands = list(_commands_of(parser))
    named = " ".join(shlex.quote(f"{each.name}:{_in_zsh(each.text)}") for each in commands)
    lines = [
        "#compdef simplecss",
        "# Completion of zsh for simplecss: a file _simplecss in a folder of $fpath.",
        "_simplecss() {",
        "    local -a commands",
        f"    commands=({named})",
        "    if (( CURRENT == 2 )); then",
        "        _describe command commands",
        "        return",
        "    fi",
        "    local command=$words[2]",
        "    shift words",
        "    (( CURRENT-- ))",
        "    case $command in",
    ]
    for command in commands:
        words = []
        for option in command.options:
            value = f"({' '.join(option.choices)})" if option.choices else " "
            value = f":value:{'_files' if option.is_path else value}" if option.takes_value else ""
            words += [
                shlex.quote(f"*{form}[{_in_zsh(option.text)}]{value}") for form in option.forms
            ]
        rest = f"({' '.join(command.words)})" if command.words else "_files"
        words.append(shlex.quote(f"*:file:{rest}"))
        lines.append(f"        {command.name}) _arguments {' '.join(words)} ;;")
    end = 'if [ "$funcstack[1]" = _simplecss ]; then _simplecss "$@"; else compdef _simplecss simplecss; fi'
    return "\n".join([*lines, "    esac", "}", end, ""])


def _fish(parser: argparse.ArgumentParser) -> str:
    front = "complete -c simplecss"
    lines = ["# Completion of fish for simplecss: ~/.config/fish/completions/simplecss.fish."]
    for command in _commands_of(parser):
        text = shlex.quote(command.text)
        lines.append(f"{front} -n __fish_use_subcommand -f -a {command.name} -d {text}")
        within = f"{front} -n '__fish_seen_subcommand_from {command.name}'"
        if command.words:
            lines.append(f"{within} -f -a {shlex.quote(' '.join(command.words))}")
        for option in command.options:
            forms = " ".join(
                f"-l {it[2:]}" if it.startswith("--") else f"-s {it[1:]}" for it in option.forms
            )
            more = f" -x -a {shlex.quote(' '.join(option.choices))}" if option.takes_value else ""
            more = " -r" if option.is_path else more
            lines.append(f"{within} {forms}{more} -d {shlex.quote(option.text)}")
    return "\n".join([*lines, ""])


# How a completion is written, by the shell.
SHELLS: Dict[str, Callable[[argparse.ArgumentParser], str]] = {
    "bash": _bash,
    "zsh": _zsh,
    "fish": _fish,
}
