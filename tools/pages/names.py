"""The free names of texts and definitions of the .antt files: what no binder in them binds."""
import re
from collections.abc import Iterable

from .specs import Definition, Place, Scope, absolute, definition, member, scope_of

WORD = re.compile(r'--[^\n]*|"(?:[^"\\]|\\.)*"|⟦[^⟧]*⟧|[(){}\[\];,]|[^\s(){}\[\];,"⟦⟧]+')
# What is built into the language.
BUILT_IN = set(
    ": = → × ← ↦ | λ λ. _ . let in do where elim as record data pub Type abbrev mutual unfolding open use tt Unit"
    " ⊥ absurd rw simp search assumption cc omega grind hlevel first_of grw".split()
)
# Constructors of the toolchain's library that are not written with a capital.
CONSTRUCTORS = {"zero", "suc", "pos", "negsuc", "[]", "∷", "◌∷◌", "true", "false", "tt", "refl"}


def is_number(word: str) -> bool:
    return bool(re.match(r"(0x[0-9a-f]+|[0-9][0-9_]*)$", word))


def is_mark(word: str) -> bool:
    """Whether a word of a pattern is no name."""
    return word in "(){}[],;=" or word in BUILT_IN or is_number(word)


def is_constructor(place: Place | None, word: str) -> bool:
    if place is None or place.kind == "module":
        return False
    if place.kind == "definition":
        return word.split(".")[-1] in definition(place).constructors
    return word.split(".")[-1][:1].isupper() or word in CONSTRUCTORS


class Names:
    """Finds the free names of a text: those that no binder in it binds."""

    def __init__(self, scope: Scope, variables: Iterable[str] = ()):
        self.scope, self.fixed = scope, set(variables)
        self.found: dict[str, Place] = {}
        self.unknown: list[str] = []
        # The variables, each with the count of brackets around its binder, and the brackets that are open.
        self.bound: list[tuple[str, int]] = []
        self.brackets: list[str] = []

    @property
    def depth(self) -> int:
        return len(self.brackets)

    def is_bound(self, word: str) -> bool:
        return word in self.fixed or any(word == name for name, _ in self.bound)

    def look_up(self, word: str) -> Place | None:
        """What a word stands for, if it is a name and no variable."""
        first, *rest = word.split(".")
        if word in self.scope:
            return self.scope[word]
        if first == "Rattle":
            return absolute(word)
        if first in self.scope:
            return member(self.scope[first], rest)
        return None

    def use(self, word: str) -> None:
        if self.is_bound(word) or self.is_bound(word.split(".")[0]):
            return
        place = self.look_up(word)
        if place is None:
            self.unknown.append(word)
        elif place.kind != "module":
            self.found[word] = place

    def scan(self, words: list[str]) -> "Names":
        """Goes through the words, with the binders that each is under."""
        at = 0
        while at < len(words):
            at = self.step(words, at)
        return self

    def step(self, words: list[str], at: int) -> int:
        """Takes in the word at the place, or more. The result is the place of the next."""
        word, following = words[at], words[at + 1] if at + 1 < len(words) else ""
        if word in BUILT_IN:
            return self.built_in(words, at)
        if word in ("(", "[", "{"):
            return self.opened(words, at)
        if word in (")", "]", "}"):
            self.close()
        elif word in (",", ";"):
            self.part()
        elif following == "←":
            self.bound.append((word, self.depth))
        elif following == "=" and self.brackets and self.brackets[-1] == "{":
            # The label of a field, or of an argument.
            return at + 2
        elif not (is_number(word) or word.startswith(('"', "⟦", "."))):
            self.use(word.rstrip("."))
        return at + 1

    def part(self) -> None:
        """A comma or the like: what is bound within the part before it ends."""
        self.bound = [it for it in self.bound if it[1] < self.depth]

    def opened(self, words: list[str], at: int) -> int:
        """A bracket, with the variables that it binds: `(x y : A)` binds them in what comes after it."""
        names = at + 1
        while names < len(words) and re.match(r"[^\s(){}\[\];,:=.]+$", words[names]):
            names += 1
        is_group = names > at + 1 and names < len(words) and words[names] == ":"
        self.brackets.append(words[at])
        if words[at] == "[":
            return self.pattern(words, at + 1)
        if is_group:
            is_type = at and words[at - 1] == "record"
            self.bound += [(word, self.depth - (not is_type)) for word in words[at + 1 : names]]
            return names + 1
        return at + 1

    def close(self) -> None:
        self.brackets.pop()
        self.bound = [it for it in self.bound if it[1] <= self.depth]

    def built_in(self, words: list[str], at: int) -> int:
        """A word of the language, with the variables that it binds."""
        word = words[at]
        if word == "λ":
            return self.lambda_(words, at + 1)
        if word == "let":
            return self.let(words, at + 1)
        if word == "|":
            self.part()
            return self.pattern(words, at + 1)
        return at + 1

    def pattern(self, words: list[str], at: int) -> int:
        """The variables of a case of an `elim`, up to its `↦`, if there is one before the next case."""
        depth, end = 0, at
        while end < len(words) and (depth or words[end] not in ("|", "]", "↦")):
            depth += (words[end] in "({[") - (words[end] in ")}]")
            end += 1
        if end == len(words) or words[end] != "↦":
            return at
        for word in words[at:end]:
            if is_mark(word):
                continue
            if is_constructor(self.look_up(word), word):
                self.use(word)
            else:
                self.bound.append((word, self.depth))
        return end + 1

    def lambda_(self, words: list[str], at: int) -> int:
        """The variables of a λ, up to the dot; the types of those in brackets are scanned."""
        while at < len(words):
            word = words[at]
            if word == "(":
                at = self.opened(words, at)
                while words[at] != ")":
                    at = self.step(words, at)
                self.close()
                at += 1
                continue
            if word == ".":
                return at + 1
            self.bound.append((word.rstrip("."), self.depth))
            at += 1
            if word.endswith("."):
                return at
        return at

    def let(self, words: list[str], at: int) -> int:
        """The variable of a `let`, or those of its tuple."""
        if words[at] in ("(", "{") or words[at] == "record":
            end = words.index("=", at)
            self.bound += [(word, self.depth) for word in words[at:end] if not is_mark(word)]
            return end + 1
        self.bound.append((words[at], self.depth))
        return at + 1


def names_of(scope: Scope, text: str, variables: Iterable[str] = ()) -> Names:
    """The places that the text names, and the words that stand for nothing known."""
    return Names(scope, variables).scan([word for word in WORD.findall(text) if not word.startswith("--")])


def pieces(it: Definition) -> list[str]:
    """The definition in pieces, each with the variables that are bound in all of it: its type, and each clause."""
    indent = 2 * len(it.sections)
    texts = []
    for line in it.lines:
        if line.strip().startswith("infix"):
            continue
        if len(line) - len(line.lstrip()) == indent and not line.strip().startswith("unfolding"):
            texts.append(line)
        elif texts:
            texts[-1] += "\n" + line
    return texts


def params(text: str) -> set[str]:
    """The names that the brackets of a header bind: `(T : Table) {A B : Type 0}`."""
    return {name for group in re.findall(r"[({]([^(){}:]*):", text) for name in group.split()}


class Parts:
    """What a definition names: each word with its place, and the words that are unknown."""

    def __init__(self, it: Definition):
        self.it, self.scope = it, scope_of(it.module)
        self.found: dict[str, Place] = {}
        self.unknown: list[str] = []
        bound = self.sections()
        first, *clauses = pieces(it)
        if it.kind == "definition":
            self.add(first.split(":", 1)[1], bound)
        else:
            self.members(first, bound)
        for text in clauses:
            self.clause(text, bound)
        own = Place("definition", it.module, it.name)
        self.found = {word: place for word, place in self.found.items() if place != own}

    def add(self, text: str, bound: set[str]) -> None:
        names = names_of(self.scope, text, bound)
        self.found.update(names.found)
        self.unknown += names.unknown

    def sections(self) -> set[str]:
        """The heads of the sections that it stands in. The result is what they bind."""
        bound: set[str] = set()
        for _, lines in self.it.sections:
            text = "\n".join(lines).strip().removeprefix("module _").removesuffix("where")
            if not text.endswith("mutual"):
                self.add(text, bound)
                bound |= params(text)
        return bound

    def members(self, text: str, bound: set[str]) -> None:
        """Of a record or a data type: its header, then each field or constructor. A field is bound in later ones."""
        lines = text.split("\n")
        end = next(i for i, line in enumerate(lines) if line.rstrip().endswith("where") or i == len(lines) - 1)
        header = "\n".join(lines[: end + 1]).strip().removesuffix("where").split(self.it.name, 1)[1]
        self.add(header, bound)
        inner = bound | params(header)
        for line in joined_members(lines[end + 1 :], 2 * len(self.it.sections) + 2):
            name, _, rest = line.strip().removeprefix("pub ").partition(" :")
            self.add(rest, inner)
            if self.it.kind == "record":
                inner = inner | {name}

    def clause(self, text: str, bound: set[str]) -> None:
        """A clause: the constructors of its left side, whose other words are variables, and its right side."""
        left, right = sides(text)
        variables, look = set(), Names(self.scope)
        for word in WORD.findall(left):
            if is_mark(word):
                continue
            place = look.look_up(word)
            if place and (is_constructor(place, word) or "◌" in place.name):
                self.found[word] = place
            else:
                variables.add(word)
        helpers = {m[1] for m in re.finditer(r"^ +(\S+) :", right, re.M)} if "where" in right else set()
        if "←" in right and "◌>>=◌" in self.scope:
            # The steps of a `do` are joined by it.
            self.found[">>="] = self.scope["◌>>=◌"]
        self.add(right, bound | variables | helpers)


def joined_members(lines: list[str], indent: int) -> list[str]:
    """Each field or constructor as one text."""
    members = []
    for line in lines:
        if line.strip().startswith("--"):
            continue
        if len(line) - len(line.lstrip()) == indent:
            members.append(line)
        elif members:
            members[-1] += "\n" + line
    return members


def sides(text: str) -> tuple[str, str]:
    """The two sides of a clause, which its first `=` outside of brackets parts."""
    depth = 0
    for found in WORD.finditer(text):
        depth += (found[0] in "({[") - (found[0] in ")}]")
        if found[0] == "=" and depth == 0:
            return text[: found.start()], text[found.end() :]
    return text, ""
