"""Definitions as they stand in the sources, and what each of them names.

A definition of crates/NAME/specs/FILE.antt is found by the `use` lines of the file that names it; a
type of a source by its module `declared`. A name that isn't found is an error.
"""

import itertools
import pathlib
import re
from collections.abc import Mapping
from typing import Literal, TypeVar

from gate import TOP

CRATES = TOP / "crates"
# What belongs to the language, and so has no definition.
LANGUAGE = set(
    "abbrev unfoldable pub record data where module infixl infixr infix let in then else Type Unit tt".split()
)
SIGNS = set("→ × ¬ ⊥ = : . ←".split())
WORD = re.compile(r"(?!λ)[^\W\d]\w*(?:\.\w+)*")
TOKEN = re.compile(r"(?<=[\w)])\.\w+|" + WORD.pattern + r"|\d\w*|\[\]|[^\s\w(){}\[\];,]+ℤ?")
ITEM = re.compile(r"(?:abbrev |unfoldable )?(?:pub )?(?:record |data )?(\S+)(?= )")


class Missing(Exception):
    """A name that can't be found."""


class Item:
    """A definition: its file, its name, its comment and its text, and the modules it stands in."""

    def __init__(self, file: "File", name: str, indent: int, comment: list[str], modules: list[list[str]]) -> None:
        self.file, self.name, self.indent = file, name, indent
        self.comment, self.modules = comment, list(modules)
        self.text: list[str] = []
        # The constructors of a data, and the variants of an enum.
        self.makers: set[str] = set()
        # The names that stand for others in its text.
        self.renamed: dict[str, tuple[str, "Item | None | Literal[False]"]] = {}
        # What a declaration of a source names.
        self.rust: list[str] | None = None
        # Of a clause: the parameters, the traits of those that are types, and the function's head.
        self.bound: list[str] = []
        self.traits: dict[str, str] = {}
        self.head: list[str] = []
        self.taken: list[Item] = []

    def body(self) -> list[str]:
        """The lines without comments, and without the head of a function."""
        return [s for s in self.text[len(self.head) :] if not s.lstrip().startswith(("--", "//"))]

    def missing(self, name: str) -> Missing:
        place = self.file.path.relative_to(TOP)
        return Missing(f"{place}: {self.name} names {name}, which is nothing")


class File:
    """A file of definitions, or of source: what it imports, and what it defines."""

    def __init__(self, path: pathlib.Path) -> None:
        self.path = path
        self.lines = path.read_text(encoding="utf-8").split("\n")
        self.names: dict[str, tuple[str, str]] = {}
        self.aliases: dict[str, str] = {}
        self.passed_on: dict[str, tuple[str, str]] = {}
        self.items: dict[str, Item] = {}
        for line in self.lines:
            self.read_use(line.strip().rstrip(";"))

    def crate(self) -> str:
        return self.path.relative_to(CRATES).parts[0]

    def above(self, start: int, *marks: str) -> list[str]:
        """The lines right above a line that begin with one of these marks."""
        begin = start
        while self.lines[begin - 1].startswith(marks):
            begin -= 1
        return self.lines[begin:start]

    def header(self) -> str:
        """The sentence at the head of the file, which says what it is about."""
        begun = itertools.takewhile(lambda line: line.startswith(("-- ", "//! ")), self.lines)
        return " ".join(line.split(" ", 1)[1] for line in begun)

    def read_use(self, line: str) -> None:
        if not re.match(r"(pub |ghost )?use Rattle", line):
            return
        found = re.match(r"(pub |ghost )?use (Rattle\.[\w.]+?)(?:\.\{([^{}]*)\}| as (\w+))?$", line)
        if not found:
            raise Missing(f"{self.path.relative_to(TOP)}: a line isn't read: {line}")
        shown, module, names, alias = found.groups()
        if names is None:
            self.aliases[alias or module.split(".")[-1]] = module
            return
        for entry in names.split(","):
            name, _, other = entry.strip().partition(" as ")
            for known in (self.names, self.passed_on) if shown == "pub " else (self.names,):
                known[other or name] = module, name


class Spec(File):
    """A file of specs/."""

    def __init__(self, path: pathlib.Path) -> None:
        super().__init__(path)
        modules: list[tuple[int, list[str]]] = []
        comment: list[str] = []
        fixity: list[str] = []
        item: Item | None = None
        for line in self.lines:
            indent = len(line) - len(line.lstrip())
            if not line.strip():
                item = None
                comment += [""] if comment else []
                continue
            if item and (indent > item.indent or indent == item.indent and self.is_equation(line)):
                item.text.append(line)
                maker = re.match(r" *(\w+) :", line)
                if maker and indent == item.indent + 2 and item.text[0].split()[:2] == ["pub", "data"]:
                    item.makers.add(maker.group(1))
                continue
            item = None
            while modules and indent <= modules[-1][0]:
                modules.pop()
            words = line.strip()
            if words.startswith("--"):
                comment.append(line)
            elif re.match(r"(pub )?(use|mod) ", words):
                comment = []
            elif words == "mutual":
                raise Missing(f"{path.relative_to(TOP)}: a mutual block is not read")
            elif words.startswith("module _"):
                modules.append((indent, comment + [line]))
                comment = []
            elif words.startswith("infix"):
                fixity = [line]
            else:
                found = ITEM.match(words)
                assert found, words
                item = self.items[found[1]] = Item(self, found[1], indent, comment, [lines for _, lines in modules])
                item.text = fixity + [line]
                comment, fixity = [], []
        for own in list(self.items.values()):
            for made in own.makers:
                self.items[made] = own

    def is_equation(self, line: str) -> bool:
        """Whether a line at the indent of a definition is one of its equations."""
        return not re.match(r"(abbrev|unfoldable|pub|module|infix[lr]?|use)\b|--", line.strip())


class Source(File):
    """A file of src/: its types and traits, with their comments, and how definitions see a type."""

    def __init__(self, path: pathlib.Path) -> None:
        super().__init__(path)
        self.types: dict[str, str] = {}
        self.types_passed_on: dict[str, str] = {}
        for start, line in enumerate(self.lines):
            if found := re.match(r"(pub )?use ([\w:]+)::(?:\{(.*)\}|(\w+));", line):
                names = dict.fromkeys(map(str.strip, (found[3] or found[4]).split(",")), found[2])
                self.types |= names
                self.types_passed_on |= names if found[1] else {}
            found = re.match(r"(?:pub(?:\(\w+\))? )?(struct|enum|trait) (\w+)", line)
            if found:
                self.read_type(start, *found.groups())

    def until_closed(self, start: int) -> list[str]:
        """The lines of a declaration from its first on."""
        lines = enumerate(self.lines[start:], start + 1)
        end = next(end for end, line in lines if line.startswith(("}", ")")) or self.lines[start].endswith(";"))
        return self.lines[start:end]

    def read_type(self, start: int, kind: str, name: str) -> None:
        comment = [s for s in self.above(start, "///", "#[") if s.startswith("///")]
        item = self.items[name] = Item(self, name, 0, comment, [])
        item.text = self.until_closed(start)
        model = [s for s in self.lines if re.match(rf"impl(<.*>)? Model for {name}\b", s)]
        if kind == "enum":
            item.makers = set(re.findall(r"^    (\w+)[ ,{(]", "\n".join(item.text), re.M))
        if kind == "trait":
            kept = [s for s in item.text if s.startswith(("    ghost ", "    // "))]
            item.text = item.text[:1] + kept + ["    ..", "}"]
            item.rust = self.ghost_names(item, kept)
        elif model:
            seen = self.until_closed(self.lines.index(model[0]))
            kept = [s for s in seen if re.match(r"    ghost (Value|view) =", s)]
            item.text += ["", seen[0]] + kept + ["    ..", "}"]
            item.rust = self.ghost_names(item, kept)
        else:
            names = re.findall(r"\b[A-Z]\w+", "\n".join(item.body()))
            item.rust = [n for n in names if n not in item.makers | {name, "Vec", "Option"}]

    def ghost_names(self, item: Item, kept: list[str]) -> list[str]:
        """What the ghost lines of a trait or of a model name, but for what they bind themselves."""
        code = "\n".join(re.sub(r"^.*?[=:] ", "", s) for s in kept if s.startswith("    ghost "))
        code = re.sub(r"([{;]\s*)\w+ = ", r"\1", code)
        bound = re.findall(r"λ ([^.]*)\.", code) + re.findall(r"\((\w+) :", code)
        for member, parameter in re.findall(r"ghost (\w+):|[<,] ?(\w+): \w+", "\n".join(item.text)):
            bound.append(member or parameter)
        known = {"Self", "Type", "record"} | set(" ".join(bound).split())
        return [w.split(".")[0] for w in WORD.findall(code) if w.split(".")[0] not in known]


F = TypeVar("F", bound=File)


class Sources:
    """All files that were looked at."""

    def __init__(self, kit: Mapping[str, str]) -> None:
        self.files: dict[pathlib.Path, File] = {}
        self.kit = kit
        self.kit_used: set[str] = set()

    def file(self, path: pathlib.Path, kind: type[F]) -> F:
        """A file of this kind, which is read once."""
        if path not in self.files:
            if not path.is_file():
                raise Missing(f"there is no {path.relative_to(TOP)}")
            self.files[path] = kind(path)
        file = self.files[path]
        assert isinstance(file, kind)
        return file

    def declared(self, crate: str, name: str) -> Item:
        """The declaration of a type of a crate, or of one that it passes on from another crate."""
        files = (self.file(path, Source) for path in sorted((CRATES / crate / "src").rglob("*.rt")))
        found = [file.items[name] for file in files if name in file.items]
        if not found:
            root = self.file(CRATES / crate / "src" / "lib.rt", Source)
            origin = root.types_passed_on.get(name, "").split("::")[0]
            if (CRATES / origin / "src").is_dir():
                return self.declared(origin, name)
        if len(found) != 1:
            raise Missing(f"{crate} declares {name} {len(found)} times")
        return found[0]

    def imported(self, module: str, name: str) -> Item | None:
        """What a name of a module is: a definition, or None where it is one of the kit's."""
        parts = module.split(".")
        if not (CRATES / parts[1]).is_dir():
            if name not in self.kit:
                raise Missing(f"gate/kit_names.txt doesn't tell {name} of {module}")
            self.kit_used.add(name)
            return None
        if parts[3:4] == ["declared"]:
            kind = parts[-2] if parts[-1].startswith("The") else parts[-1]
            item = self.declared(parts[1], kind)
            if parts[-1] == "TheVariants" and name not in item.makers:
                raise Missing(f"{kind} has no variant {name}")
            return item
        spec = self.file(CRATES.joinpath(parts[1], *parts[2:-1], parts[-1] + ".antt"), Spec)
        if name in spec.items:
            return spec.items[name]
        if name in spec.passed_on:
            return self.imported(*spec.passed_on[name])
        raise Missing(f"{module} has no {name}")

    def named(self, file: File, name: str) -> Item | None | Literal[False]:
        """What a name means in a file: a definition, None if it is the kit's, False if nothing."""
        if name in file.items:
            return file.items[name]
        if name in file.names:
            return self.imported(*file.names[name])
        if isinstance(file, Source) and name in file.types:
            path = file.types[name].split("::")
            if path[0] == "std":
                return self.imported("Rattle.std", name)
            return self.declared(file.crate() if path[0] == "crate" else path[0], name)
        return False

    def operators(self, file: File, symbol: str) -> list[str]:
        """The names of a file's operators that a symbol is part of."""
        known = list(file.names) + list(file.items)
        return [n for n in known if n == symbol or "◌" in n and symbol in n.split("◌")]


def bound_names(item: Item, code: str) -> set[str]:
    """The names that a definition binds itself, but for those on the left of its equations."""
    bound = set(re.findall(r"^ *pub (\w+) :", code, re.M)) | set(item.bound)
    for group in re.findall(r"[({]([\w ]+) :", modules_of(item) + code):
        bound |= set(group.split())
    for pattern in r"λ ([^.]*)\.", r"^ *(.*?) ←", r"let (\w+)":
        for group in re.findall(pattern, code, re.M):
            bound |= set(WORD.findall(group))
    return bound


def modules_of(item: Item) -> str:
    return "".join(s + "\n" for m in item.modules for s in m if not s.lstrip().startswith("--"))


def left_sides(item: Item, code: str) -> set[str]:
    """The words on the left of a definition's equations."""
    sides = re.findall(r"^ {%d}([\w(].*?) =(?: |$)" % item.indent, code, re.M)
    return {word for side in sides if " : " not in side for word in WORD.findall(side)}


def uses(sources: Sources, item: Item) -> list[Item]:
    """The definitions that a definition names, in their order."""
    found = []
    for name in item.rust or []:
        found.append(sources.named(item.file, name))
        if found[-1] is False:
            raise item.missing(name)
    if item.rust is not None:
        return [means for means in found if means and means is not item]
    code = re.sub(r'"[^"]*"|//.*|(ensures|requires) \w* ?\{', "", "\n".join(item.body()))
    bound, left = bound_names(item, code), left_sides(item, code)
    text = re.sub(r"([{;]\s*)\w+ = ", r"\1", modules_of(item) + code)
    for token in TOKEN.findall(text):
        if token in LANGUAGE or token[0].isdigit() or re.match(r"\.\w", token):
            continue
        if WORD.match(token) and token not in ("if", "do"):
            head, _, tail = token.partition(".")
            if head in item.traits:
                means = sources.named(item.file, item.traits[head])
            elif head in item.file.aliases and tail:
                means = sources.imported(item.file.aliases[head], tail.split(".")[0])
                item.renamed[f"{head}.{tail}"] = tail, means
            elif head in bound or head == "_":
                continue
            else:
                means = sources.named(item.file, head)
                if head not in item.file.items and item.file.names.get(head, ("", head))[1] != head:
                    item.renamed[head] = item.file.names[head][1], means
            if head in left and (means is False or means and head not in means.makers):
                continue
            if means is False:
                raise item.missing(token)
            found.append(means)
            continue
        names = sources.operators(item.file, {"do": ">>="}.get(token, token))
        if not names and token not in SIGNS:
            raise item.missing(token)
        found += [sources.named(item.file, name) for name in names]
    return [means for means in found if means and means is not item]
