"""Completion of psi's own words: what each shell offers, where it is installed."""

import re
import shlex
import shutil

import pytest
from conftest import TOP, ended, example, match_in

FILES = TOP / "release/package_files"
# What stands before the cursor, and what is offered there.
OFFERED = {
    "psi s": ["sample"],
    "psi re": ["replay", "report", "reward"],
    "psi reward {net} 0 0 ": ["drill-full", "parts"],
    "psi sample {net} 0 0 ": ["log"],
    "psi trial ": [],
    "psi report {net} 0 ": [],
    "psi check {net} ": [],
    "psi help sa": ["sample"],
    "psi --v": ["--version"],
}
NET = str(example("tandem-blocking"))
# What zsh calls is told in place of being offered; the choice of what begins so is the shell's.
ZSH = """
_describe() {{ print -rl -- ${{${{(P)2}}%%:*}} }}
_files() {{ print -r -- files "${{@[-1]}}" }}
_message() {{ }}
compadd() {{ print -rl -- "${{@:#--}}" }}
words=({words}) CURRENT={count}
. {file}
"""


def offered(shell: str, line: str) -> list[str]:
    """What a shell offers after a line, in order."""
    words = shlex.split(line) + ([""] if line.endswith(" ") else [])
    quoted, file = " ".join(map(shlex.quote, words)), FILES / f"completion.{shell}"
    script = {
        "bash": f". {file}\nCOMP_WORDS=({quoted}) COMP_CWORD={len(words) - 1}\n"
        '_psi && printf "%s\\n" "${COMPREPLY[@]}"',
        "zsh": ZSH.format(words=quoted, count=len(words), file=file),
        "fish": f"source {file}; complete -C {shlex.quote(line)}",
    }[shell]
    call = [shell, "-f", "-c", script] if shell == "zsh" else [shell, "-c", script]
    _, out, error = ended(call, cwd=TOP)
    assert error == ""
    found = [line.partition("\t")[0] for line in out.splitlines() if line]
    return sorted(word for word in found if word.startswith(words[-1]))


@pytest.mark.parametrize("shell", ["bash", "zsh", "fish"])
def test_words_of_psi(shell: str) -> None:
    if not shutil.which(shell):
        pytest.skip(f"{shell} isn't installed")
    for line, wanted in OFFERED.items():
        assert offered(shell, line.format(net=NET)) == wanted, line
    if shell == "zsh":
        assert offered(shell, "psi check ") == ["files *.toml"]
        assert offered(shell, "psi replay net ") == ["files *.log"]
    else:
        assert offered(shell, "psi check examples/tandem-b") == ["examples/tandem-blocking.toml"]


@pytest.mark.parametrize("shell", ["bash", "zsh", "fish"])
def test_all_commands_are_offered(shell: str) -> None:
    text = (FILES / f"completion.{shell}").read_text()
    help_text = (TOP / "tools/command/help.txt").read_text()
    usage = match_in(r"^Commands:\n(.*?)\n\n", help_text, re.S | re.M)
    commands = {line.split()[0] for line in usage[1].splitlines()}
    assert len(commands) == 9
    assert all(re.search(rf"\b{command}\b", text) for command in commands)
    assert shutil.which(shell) is None or sorted({*commands, "help"}) == offered(shell, "psi ")
