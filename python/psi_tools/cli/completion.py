"""Completion of the commands' arguments for bash, zsh and fish, made from their parsers.

    python3 -m psi_tools.cli.completion SHELL COMMAND
"""

import argparse
import importlib
import sys
from collections.abc import Iterable, Iterator, Sequence
from typing import Any

from psi_tools.cli.command import run
from psi_tools.cli.entry import NAMES
from psi_tools.io.files import write

# An option of a command: its names, its value's name, its choices, and its help.
Option = tuple[Sequence[str], str | None, Iterable[Any] | None, str]
SHELLS = "bash", "zsh", "fish"
# Parts of the names of options and arguments that stand for a file or a folder.
FILES = ("FILE", "FOLDER", "NET", "REPORT", "PSI", "PROGRAM")
# The names of the tables of a network file, of one section or several.
NAMES_OF = (
    "awk '/^[ \\t]*\\[/ { s = /\\[\\[[ \\t]*(%s)[ \\t]*\\]\\]/ } s && /^[ \\t]*name[ \\t]*=/ "
    '{ sub(/^[^=]*=[ \\t]*./, ""); sub(/[^A-Za-z0-9_-].*$/, ""); print }\' "%s" 2>/dev/null'
)
# The arguments of a command beside its options: by their place those that can stand there, or the
# sections of the network in the first word whose names can.
WORDS: dict[str, dict[int, tuple[str, ...]]] = {
    "plot": {1: ("coupling", "report", "exact", "forward", "past", "path", "network")}
}
SECTIONS = {"law": {2: "queue|reward"}, "sweep": {2: "queue|event"}}


def options_of(parser: argparse.ArgumentParser) -> Iterator[Option]:
    """The options of a reader."""
    for action in parser._actions:
        if action.option_strings and action.help is not argparse.SUPPRESS:
            metavar = (action.metavar or action.dest.upper()) if action.nargs != 0 else None
            name = metavar if isinstance(metavar, str) or metavar is None else " ".join(metavar)
            yield action.option_strings, name, action.choices, (action.help or "").replace("%%", "%")


def kinds_of(parser: argparse.ArgumentParser) -> dict[str, tuple[argparse.ArgumentParser, str]]:
    """The readers below a reader, by their kinds, with their help."""
    for action in parser._actions:
        if isinstance(action, argparse._SubParsersAction):
            description = {choice.dest: choice.help or "" for choice in action._choices_actions}
            return {kind: (below, description[kind]) for kind, below in action.choices.items()}
    return {}


def is_file(metavar: str) -> bool:
    return any(metavar.endswith(name) for name in FILES)


def bash_of(name: str, parser: argparse.ArgumentParser) -> str:
    """What completes a command in bash."""
    function = f"_psi_{name}"
    kinds = kinds_of(parser)
    lines = [f"{function}() {{", "    local word=${COMP_WORDS[COMP_CWORD]}"]
    lines += ["    local before=${COMP_WORDS[COMP_CWORD - 1]} options", "    COMPREPLY=()"]
    own = [*options_of(parser)]
    for below, _ in kinds.values():
        own += options_of(below)
    lines.append("    case $before in")
    seen: set[str] = set()
    for names, metavar, choices, _ in own:
        if metavar is not None and not seen & {*names}:
            seen |= {*names}
            wanted = f'compgen -W "{" ".join(choices)}"' if choices else "compgen -f"
            given = f'COMPREPLY=($({wanted} -- "$word"))' if choices or is_file(metavar) else ""
            lines.append(f"    {' | '.join(names)}) {given}; return ;;".replace(") ;", ")"))
    lines += ["    esac", f'    options="{option_names(parser)}"']
    if kinds:
        lines.append("    case ${COMP_WORDS[1]} in")
        for kind, (below, _) in kinds.items():
            lines.append(f'    {kind}) options="{option_names(below)}" ;;')
        lines.append("    esac")
    lines += [
        "    if [[ $word == -* ]]; then",
        '        COMPREPLY=($(compgen -W "$options" -- "$word"))',
        *bash_words(name, kinds),
        "    else",
        "        compopt -o filenames 2>/dev/null",
        '        COMPREPLY=($(compgen -f -- "$word"))',
        "    fi",
        "}",
        f"complete -F {function} psi-{name}",
    ]
    return "\n".join(lines) + "\n"


def bash_words(name: str, kinds: Iterable[str]) -> Iterator[str]:
    """The lines of bash for the arguments that aren't options."""
    places = {**WORDS.get(name, {}), **({1: (*kinds,)} if kinds else {})}
    for place, args in places.items():
        yield f'    elif [ "$COMP_CWORD" -eq {place} ]; then'
        yield f'        COMPREPLY=($(compgen -W "{" ".join(args)}" -- "$word"))'
    for place, sections in SECTIONS.get(name, {}).items():
        yield f'    elif [ "$COMP_CWORD" -ge {place} ]; then'
        found = NAMES_OF % (sections, "${COMP_WORDS[1]}")
        yield f'        COMPREPLY=($(compgen -W "$({found})" -- "$word"))'


def option_names(parser: argparse.ArgumentParser) -> str:
    """All options of a reader."""
    return " ".join(name for names, *_ in options_of(parser) for name in names)


def zsh_of(name: str, parser: argparse.ArgumentParser) -> str:
    """What completes a command in zsh."""
    kinds = kinds_of(parser)
    if not kinds:
        return f"#compdef psi-{name}\n" + zsh_arguments(name, parser)
    lines = [f"#compdef psi-{name}", "local -a kinds", "kinds=("]
    lines += [f"    '{kind}:{description}'" for kind, (_, description) in kinds.items()]
    lines += [")", "if (( CURRENT == 2 )); then", "    _describe kind kinds", "    return", "fi"]
    lines += ["local kind=$words[2]", "shift words", "(( CURRENT-- ))", "case $kind in"]
    for kind, (below, _) in kinds.items():
        lines.append(f"{kind}) {zsh_arguments(name, below).strip()} ;;")
    return "\n".join([*lines, "esac", ""])


def zsh_arguments(name: str, parser: argparse.ArgumentParser) -> str:
    """The call of _arguments for a reader."""
    specs = []
    for names, metavar, choices, description in options_of(parser):
        description = description.replace("'", "'\\''").replace("[", "(").replace("]", ")")
        value = ""
        if metavar is not None:
            what = f"({' '.join(choices)})" if choices else "_files" if is_file(metavar) else " "
            value = f":{metavar.lower().replace(':', ' ')}:{what}"
        one = names[0] if len(names) == 1 else "{" + ",".join(names) + "}"
        front = "" if len(names) == 1 else f"'({' '.join(names)})'"
        specs.append(f"{front}{one}'[{description}]{value}'")
    for place, args in WORDS.get(name, {}).items():
        specs.append(f"'{place}:what:({' '.join(args)})'")
    for place, sections in SECTIONS.get(name, {}).items():
        found = (NAMES_OF % (sections, "$words[2]")).replace("'", "'\\''")
        specs += ["'1:file:_files'", f"'*:name:{{compadd - $({found})}}'"]
    if name not in SECTIONS:
        specs.append("'*:file:_files'")
    return "_arguments -s \\\n    " + " \\\n    ".join(specs) + "\n"


def fish_of(name: str, parser: argparse.ArgumentParser) -> str:
    """What completes a command in fish."""
    command, kinds = f"psi-{name}", kinds_of(parser)
    lines = [*fish_options(command, parser, "")]
    for kind, (below, description) in kinds.items():
        when = f"-n 'not __fish_seen_subcommand_from {' '.join(kinds)}' "
        lines.append(f"complete -c {command} -f {when}-a {kind} -d '{quoted(description)}'")
        lines += fish_options(command, below, f"-n '__fish_seen_subcommand_from {kind}' ")
    for place, args in WORDS.get(name, {}).items():
        when = f"-n 'test (count (commandline -opc)) -eq {place}' "
        lines.append(f"complete -c {command} -f {when}-a '{' '.join(args)}'")
    for place, sections in SECTIONS.get(name, {}).items():
        when = f"-n 'test (count (commandline -opc)) -ge {place}' "
        found = (NAMES_OF % (sections, "$net")).replace("\\", "\\\\").replace("'", "\\'")
        names = f"(set net (commandline -opc)[2]; {found})"
        lines.append(f"complete -c {command} -f {when}-a '{names}'")
    return "\n".join(lines) + "\n"


def fish_options(command: str, parser: argparse.ArgumentParser, when: str) -> Iterator[str]:
    """The options of a reader for fish."""
    for names, metavar, choices, description in options_of(parser):
        line = f"complete -c {command} {when}"
        for option in names:
            line += f"-l {option[2:]} " if option.startswith("--") else f"-s {option[1:]} "
        if metavar is not None:
            line += "-r -F " if is_file(metavar) and not choices else "-x "
            line += f"-a '{' '.join(choices)}' " if choices else ""
        yield f"{line}-d '{quoted(description)}'"


def quoted(text: str) -> str:
    """A text as it stands in quotes of fish."""
    return text.replace("\\", "\\\\").replace("'", "\\'")


def completion(shell: str, name: str) -> str:
    """The text that completes a command, whose name is without psi-, in a shell."""
    parser = importlib.import_module(f"psi_tools.cli.{name}").parser()
    return {"bash": bash_of, "zsh": zsh_of, "fish": fish_of}[shell](name, parser)


if __name__ == "__main__":
    is_known = len(sys.argv) == 3 and sys.argv[1] in SHELLS
    if not is_known or sys.argv[2].removeprefix("psi-") not in NAMES:
        sys.exit("usage: python3 -m psi_tools.cli.completion bash|zsh|fish COMMAND")
    shell, command = sys.argv[1], sys.argv[2].removeprefix("psi-")
    sys.exit(run("psi_tools.cli.completion", lambda _: write(completion(shell, command)), sys.argv[1:]))
