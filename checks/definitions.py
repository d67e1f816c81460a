"""The definitions of the crates' specs/, and what each of them names.

A file is read by its layout, which the gate asks for. A definition begins at the margin, or at that of its section (`module _ .. where`), with
its signature; behind it come its equations, each at the same margin. Whatever stands further in goes on with what is above it.
"""
import pathlib
import re
from dataclasses import dataclass, field
from typing import Dict, Iterable, Iterator, List, NamedTuple, Optional, Sequence, Set, Tuple, Union

WORD = re.compile(r"[(){}\[\],;]|[^\s(){}\[\],;]+")
USE = re.compile(r"(pub )?use Rattle\.([^\s{;]+?)(?:\.\{(.*)\}| as (\S+))?;?$")
KEYWORDS = {"pub", "abbrev", "unfoldable", "record", "data"}
OPENS, CLOSES = set("({["), set(")}]")
NOT_A_DEFINITION = re.compile(r"(pub )?mod |infix|ruleset|open ")


class Place(NamedTuple):
    """A name of a module, as `use` lines have it: `ucon_top.specs.Ran` and `HasCauses`."""

    module: str
    name: str


@dataclass(eq=False)
class Definition:
    module: str
    file: pathlib.Path
    name: str
    kind: str
    line: int
    sections: Tuple[str, ...]
    # its signature, and then its equations: each with all its lines
    parts: List[str] = field(default_factory=list)

    @property
    def lines(self) -> int:
        """How many lines it has; comments and empty ones don't count."""
        return sum(part.count("\n") + 1 for part in self.parts)

    @property
    def full_name(self) -> str:
        return f"{self.module.replace('.specs.', '.')}.{self.name}"

    def fields(self, part: str) -> List[str]:
        """A record's head and then each field, or a type's head and then its constructors."""
        margin = 2 * len(self.sections) + 2
        return re.split(rf"\n {{{margin}}}(?=\S)", part)


class SourceType(NamedTuple):
    """A type that the source declares, or a variant of it. What it holds isn't read here."""

    path: str


Meaning = Union[Definition, SourceType]


@dataclass
class Module:
    path: str
    file: pathlib.Path
    definitions: Dict[str, Definition] = field(default_factory=dict)
    constructors: Dict[str, Definition] = field(default_factory=dict)
    imports: Dict[str, Place] = field(default_factory=dict)
    aliases: Dict[str, str] = field(default_factory=dict)
    exports: Dict[str, Place] = field(default_factory=dict)

    def use(self, line: str) -> None:
        """Takes up a `use` line, if it is one."""
        found = USE.match(line)
        if found is None:
            return
        public, path, names, alias = found.groups()
        if names is None:
            self.aliases[alias or path.rpartition(".")[2]] = path
            return
        for item in filter(None, map(str.strip, names.split(","))):
            name, _, other = item.partition(" as ")
            self.imports[other or name] = Place(path, name)
            if public:
                self.exports[other or name] = Place(path, name)


# ---- how a file is read


class ModuleReader:
    """Reads a file line by line, with the definition that was begun last and the sections that are open."""

    def __init__(self, path: str, file: pathlib.Path) -> None:
        self.module = Module(path, file)
        self.last: Optional[Definition] = None
        self.sections: List[Tuple[int, str]] = []

    def read(self) -> Module:
        lines = self.module.file.read_text(encoding="utf-8").split("\n")
        at = 0
        while at < len(lines):
            words = lines[at].strip()
            if words.startswith("module "):
                at = self.open_section(lines, at)
            elif words and not words.startswith("--"):
                self.take(lines[at], at + 1)
            at += 1
        return self.module

    def open_section(self, lines: List[str], at: int) -> int:
        """Opens a section, and gives the last line of its head."""
        end = next(i for i in range(at, len(lines)) if lines[i].rstrip().endswith("where"))
        head = "\n".join(lines[at : end + 1])
        self.close_sections(indent_of(lines[at]))
        self.sections.append((indent_of(lines[at]) + 2, head.strip().removeprefix("module _").removesuffix("where")))
        self.last = None
        return end

    def close_sections(self, indent: int) -> None:
        while self.sections and indent < self.sections[-1][0]:
            self.sections.pop()

    def take(self, line: str, number: int) -> None:
        words = line.strip()
        self.close_sections(indent_of(line))
        margin = self.sections[-1][0] if self.sections else 0
        if words.startswith(("use ", "pub use ")):
            self.module.use(words)
        elif NOT_A_DEFINITION.match(words):
            return
        elif self.last is not None and indent_of(line) > margin:
            self.last.parts[-1] += "\n" + line
        else:
            self.begin(words, number)
        if self.last is not None and self.last.kind == "data":
            self.take_constructors(words, indent_of(line) > margin)

    def begin(self, words: str, number: int) -> None:
        """Begins a definition, or another equation of one."""
        name, kind = head_of(words)
        if kind is not None and name not in self.module.definitions:
            heads = tuple(head for _, head in self.sections)
            self.last = Definition(self.module.path, self.module.file, name, kind, number, heads)
            self.module.definitions[name] = self.last
        else:
            # An operator's equation begins with a pattern, and goes with the definition above it.
            self.last = self.module.definitions.get(name, self.last)
        if self.last is not None:
            self.last.parts.append(words)

    def take_constructors(self, words: str, is_inside: bool) -> None:
        names, colon, _ = words.partition(" : ")
        if is_inside and colon and self.last is not None:
            self.module.constructors.update({name: self.last for name in names.split()})


def indent_of(line: str) -> int:
    return len(line) - len(line.lstrip())


def head_of(words: str) -> Tuple[str, Optional[str]]:
    """The name that a line at the margin begins with, and the kind of definition if it begins one."""
    said = WORD.findall(words)
    keywords = [word for word in said if word in KEYWORDS]
    behind = [word for word in said if word not in KEYWORDS]
    for kind in ("record", "data"):
        if kind in keywords:
            return behind[0], kind
    return behind[0], "function" if behind[1:2] == [":"] else None


# ---- which words of a text are bound there


class Scope:
    """Goes over a text's words, and gives those that nothing in it binds: no `λ`, no `let`, no `(x : T)`."""

    def __init__(self, bound: Set[str]) -> None:
        self.frames: List[Set[str]] = [set(bound)]

    def is_bound(self, word: str) -> bool:
        return any(word in frame for frame in self.frames)

    def free(self, words: Sequence[str]) -> Iterator[str]:
        at = 0
        while at < len(words):
            word, at = words[at], at + 1
            if word in OPENS:
                names = binders(words[at:])
                self.frames[-1].update(names)
                self.frames.append(set())
                at += len(names)
            elif word in CLOSES:
                self.frames.pop()
            elif word == "λ":
                at += self.bind_parameters(words[at:])
            elif word == "let" or words[at : at + 1] == ["←"]:
                self.frames[-1].add(words[at] if word == "let" else word)
            elif words[at : at + 1] == ["="] and words[at - 2] in {"{", ";"}:
                at += 1  # the label of a record's field
            elif not self.is_bound(word.partition(".")[0]):
                yield word

    def bind_parameters(self, words: Sequence[str]) -> int:
        """Binds what stands behind a `λ`, up to its point, and gives how many words that are."""
        if words[0] in OPENS:
            return 0
        count = next(i for i, word in enumerate(words) if word.endswith(".")) + 1
        self.frames[-1].update(word.rstrip(".") for word in words[:count])
        return count


def binders(words: Sequence[str]) -> List[str]:
    """The names of `x y : T)`, of which these are the words behind the bracket; none where it is another bracket."""
    for at, word in enumerate(words):
        if word == ":":
            return list(words[:at])
        if word in OPENS | CLOSES | set(",;"):
            break
    return []


def equation_of(words: Sequence[str]) -> int:
    """The place of the `=` between an equation's two sides; their number where there is none."""
    depth = 0
    for at, word in enumerate(words):
        depth += (word in OPENS) - (word in CLOSES)
        if word == "=" and depth == 0:
            return at
    return len(words)


# ---- what names mean


class Library:
    """All definitions of a repository, and what a name of a module means."""

    def __init__(self, top: pathlib.Path) -> None:
        self.modules: Dict[str, Module] = {}
        for specs in sorted(top.glob("crates/*/specs")):
            for file in sorted(specs.rglob("*.antt")):
                if file.name != "Lib.antt":
                    inner = ".".join(file.relative_to(specs).with_suffix("").parts)
                    path = f"{specs.parent.name}.specs.{inner}"
                    self.modules[path] = ModuleReader(path, file).read()

    def at(self, place: Place) -> Optional[Meaning]:
        """What a place names. The library's own words mean nothing here."""
        if ".specs.declared." in place.module:
            return SourceType(place.module.removesuffix(".TheVariants"))
        module = self.modules.get(place.module)
        if module is None:
            return None
        own = module.definitions.get(place.name) or module.constructors.get(place.name)
        exported = module.exports.get(place.name)
        return own or (self.at(exported) if exported else None)

    def meaning(self, module: Module, word: str) -> Optional[Meaning]:
        first, point, rest = word.partition(".")
        if point and first in module.aliases:
            return self.at(Place(module.aliases[first], rest.partition(".")[0]))
        for name in (first, f"◌{first}◌", f"◌{first}"):
            own = module.definitions.get(name) or module.constructors.get(name)
            if own:
                return own
            if name in module.imports:
                return self.at(module.imports[name])
        return None

    def meanings(self, module: Module, words: Iterable[str]) -> Iterator[Meaning]:
        for word in words:
            meaning = self.meaning(module, word)
            if meaning is not None:
                yield meaning

    def named_in(self, module: Module, words: Sequence[str], bound: Set[str]) -> Iterator[Meaning]:
        """What words name where nothing in them, and none of these, binds it."""
        return self.meanings(module, Scope(bound).free(words))

    def names(self, definition: Definition) -> Iterator[Meaning]:
        """What a definition names, in its order. `do` names the module's own `>>=`."""
        module = self.modules[definition.module]
        bound: Set[str] = set()
        for head in definition.sections:
            yield from self.signature_names(module, WORD.findall(head), bound)
        if any("←" in part for part in definition.parts) and "◌>>=◌" in module.definitions:
            yield module.definitions["◌>>=◌"]
        for part in definition.parts:
            if definition.kind in ("record", "data"):
                yield from self.fields_names(module, definition.fields(part), set(bound))
            elif part is definition.parts[0]:
                yield from self.named_in(module, behind_colon(part), bound)
            else:
                yield from self.equation_names(module, WORD.findall(part), bound)

    def signature_names(self, module: Module, words: Sequence[str], bound: Set[str]) -> Iterator[Meaning]:
        """What parameters name, which are bound behind them."""
        scope = Scope(bound)
        yield from self.meanings(module, scope.free(words))
        bound.update(scope.frames[0])

    def fields_names(self, module: Module, texts: Sequence[str], bound: Set[str]) -> Iterator[Meaning]:
        """What a record's parameters and fields name, or a type's constructors. A field is bound in those behind it."""
        yield from self.signature_names(module, WORD.findall(texts[0]), bound)
        for one in texts[1:]:
            yield from self.named_in(module, behind_colon(one), bound)
            bound.update(WORD.findall(one.partition(" : ")[0]))

    def equation_names(self, module: Module, words: Sequence[str], bound: Set[str]) -> Iterator[Meaning]:
        """What an equation names. On its left side only what makes a value counts, and each other word is bound on its right side."""
        middle = equation_of(words)
        variables = set(bound)
        for word in words[:middle]:
            meaning = self.meaning(module, word)
            if isinstance(meaning, SourceType) or (meaning is not None and meaning.kind == "data"):
                yield meaning
            elif "." not in word:
                variables.add(word)
        yield from self.named_in(module, words[middle + 1 :], variables)


def behind_colon(text: str) -> List[str]:
    words = WORD.findall(text)
    return words[words.index(":") + 1 :] if ":" in words else words
