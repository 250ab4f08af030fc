"""api_page.py [FILE]: the page of the module psi, made of its docstrings, which are in numpydoc form.

Prints the page, or writes it to FILE, as `python3 api_page.py ../docs/API.md`. A test compares.
"""

import inspect
import pathlib
import re
import sys
import textwrap
from collections.abc import Iterator

import psi

HEAD = """# The module psi

This page lists what `import psi` offers. It is for people who call PSI from Python; it is made of
the docstrings, which `help(psi.samples)` shows too.

A network is a `Network`, or the path of its file. Every call that draws takes `program`, a
`Program`; without one it runs the program that is built, or the one on the PATH. Work above two
seconds shows a progress bar where `tqdm` is installed; the environment variable `TQDM_DISABLE`
turns it off. Every call raises `ArgumentError` where an argument is out of its range. The examples
assume `import psi`, and this network:

```pycon
>>> net = psi.Network().queue("desk", capacity=10)
>>> net = net.event("come", "arrival", rate=4, to=["desk"])
>>> net = net.event("serve", "service", rate=5, source="desk")
```
"""
GROUPS = {
    "Networks and the program": ("Network", "Program", "check"),
    "Samples": ("states", "paths", "samples", "closed", "couple", "reward", "exact"),
    "Estimates": ("report", "means", "law", "probability"),
    "Certificates": ("log", "replay", "draw_log"),
    "Results": ("Coalescence", "RewardValue", "Probability", "Shrinking"),
    "Exceptions and warnings": (
        *("PsiError", "Refused", "NotCoupled", "ArgumentError", "InputError"),
        *("Uncoupled", "FewSamples"),
    ),
}
SECTION = re.compile(r"^(\w+)\n-+\n", re.M)
WIDTH = 100


def signature_of(name: str, call: object) -> str:
    """How something is called, without types, which the parameters have."""
    found = inspect.signature(call)  # type: ignore[arg-type]
    plain = [each.replace(annotation=each.empty) for each in found.parameters.values() if each.name != "self"]
    return f"{name}{found.replace(parameters=plain, return_annotation=found.empty)}"


def entries_of(text: str) -> Iterator[tuple[str, str]]:
    """The entries of a section: what stands on the line that begins one, and what stands below it."""
    for entry in re.split(r"\n(?=\S)", text.strip("\n")):
        head, _, body = entry.partition("\n")
        yield head, " ".join(textwrap.dedent(body).split())


def section_text(title: str, text: str) -> str:
    """A section of a docstring as Markdown."""
    if title == "Examples":
        return f"```pycon\n{text.strip()}\n```\n"
    if title == "Notes":
        return filled(text)
    lines = [f"**{title}**\n"]
    for head, body in entries_of(text):
        name, colon, kind = head.partition(" : ")
        what = f"`{name}`" + (f" ({kind})" if colon else "") if title != "Returns" else head
        lines.append(textwrap.fill(f"- {what}: {body}", WIDTH, subsequent_indent="  ", break_on_hyphens=False))
    return lines[0] + "\n" + "\n".join(lines[1:]) + "\n"


def filled(text: str) -> str:
    """Paragraphs, each filled to a width."""
    parts = re.split(r"\n\s*\n", text.strip())
    return "\n\n".join(textwrap.fill(" ".join(part.split()), WIDTH, break_on_hyphens=False) for part in parts) + "\n"


def doc_text(doc: str) -> str:
    """A docstring as Markdown."""
    parts = SECTION.split(inspect.cleandoc(doc))
    texts = [filled(parts[0])]
    texts += [section_text(title, text) for title, text in zip(parts[1::2], parts[2::2])]
    return "\n".join(texts)


def methods_of(made: type) -> Iterator[str]:
    """The public methods of a class that are its own, each as Markdown."""
    for name, found in vars(made).items():
        call = found.__func__ if isinstance(found, classmethod) else found
        if name.startswith("_") or not inspect.isfunction(call) or not (call.__doc__ and "\n" in call.__doc__):
            continue
        yield f"#### `{signature_of(f'{made.__name__}.{name}', getattr(made, name))}`\n\n{doc_text(call.__doc__)}"


def entry_of(name: str) -> str:
    """All of a name, as Markdown."""
    found = getattr(psi, name)
    is_plain = inspect.isclass(found) and issubclass(found, (Exception, tuple))
    head = f"psi.{name}" if is_plain or name == "Shrinking" else signature_of(f"psi.{name}", found)
    own = [f"### `{head}`\n\n{doc_text(found.__doc__ or '')}"]
    if inspect.isclass(found) and not is_plain and name == "Network":
        own += methods_of(found)
    return "\n".join(own)


def page() -> str:
    """The page."""
    listed = {name for names in GROUPS.values() for name in names}
    assert listed == {*psi.__all__} - {"__version__"}, listed ^ {*psi.__all__}
    contents = (
        f"- [{group}](#{group.lower().replace(' ', '-')}): {', '.join(names)}" for group, names in GROUPS.items()
    )
    lines = (textwrap.fill(line, WIDTH, subsequent_indent="  ", break_on_hyphens=False) for line in contents)
    parts = [HEAD, "\n".join(lines) + "\n"]
    for group, names in GROUPS.items():
        parts += [f"## {group}\n", *map(entry_of, names)]
    return "\n".join(parts)


if __name__ == "__main__":
    if len(sys.argv) > 1:
        pathlib.Path(sys.argv[1]).write_text(page(), encoding="utf-8")
    else:
        print(page(), end="")
