"""Finds modules and the types of the code, in the repository and in the kit, and resolves the names of a module."""

import os
import pathlib
import re
import shutil
from dataclasses import dataclass

from . import Refused
from .modules import Constructor, Definition, Module
from .values import CONSTRUCTORS, FAST, NATIVE

# The crates of the kit that `std` exports.
STD = ("std", "core", "std_alloc", "std_collections")
# The operators of whole numbers, truth values and lists, whose modules declare no fixity.
FIXITIES = {
    "◌+◌": ("infixl", 65), "◌-◌": ("infixl", 65), "◌*◌": ("infixl", 70), "◌/◌": ("infixl", 70), "◌%◌": ("infixl", 70),
    "◌^◌": ("infixr", 75), "◌≤◌": ("infix", 50), "◌<◌": ("infix", 50), "◌==◌": ("infix", 40), "◌∷◌": ("infixr", 67),
    "◌++◌": ("infixr", 65), "◌&&◌": ("infixl", 35), "◌||◌": ("infixl", 30), "◌≡◌": ("infix", 4), "◌≢◌": ("infix", 4),
    "◌⊎◌": ("infixr", 1), "◌↔◌": ("infix", 0), "◌∣◌": ("infix", 50),
}
DECLARED = re.compile(r"Rattle\.(\w+)\.specs\.declared\.(.+)$")
EQUALITY = re.compile(r"Rattle\.(\w+)\.specs\.contracts\.(.+)\.(\w+)PartialEq\.TheImpl$")


# ---- what a name means


@dataclass(slots=True)
class Defined:
    definition: Definition


@dataclass(slots=True)
class Constructs:
    name: str
    arity: int
    constructor: Constructor | None = None


@dataclass(slots=True)
class IsNative:
    name: str


@dataclass(slots=True)
class IsModule:
    path: str


@dataclass(slots=True)
class IsType:
    path: str


@dataclass(slots=True)
class IsEquality:
    """The equality that the code derives for a type."""

    kind: str


def kit_folder():
    """Returns the folder of the kit: that of the environment variable RATTLE_KIT, or of the command `rt` on PATH."""
    named, command = os.environ.get("RATTLE_KIT"), shutil.which("rt")
    folder = pathlib.Path(named) if named else pathlib.Path(command).resolve().parents[1] if command else None
    if folder is None or not (folder / "rattle/core/specs").is_dir():
        raise Refused("the Rattle kit is missing: its command `rt` is not on PATH, and its definitions are needed")
    return folder


class Library:
    """The modules of a repository and of a kit. With `plain` the functions of lists and bytes are the kit's, not those by hand."""

    def __init__(self, top, kit=None, plain=False):
        self.native = NATIVE if plain else NATIVE | FAST
        self.crates, self.kit = pathlib.Path(top) / "crates", (kit or kit_folder()) / "rattle"
        self.loaded, self.enums = {}, {}

    # ---- files

    def homes(self, crate):
        """The folders that a crate may have."""
        return [root / name for name in (STD if crate == "std" else (crate,)) for root in (self.crates, self.kit)]

    def home_path(self, path):
        """The path of a module under the crate that has it: that of `std` may be another one's, which `std` exports."""
        if path.startswith("Rattle.std.specs."):
            file = self.file_of(path)
            home = next((name for name in STD[1:] if file and (self.kit / name) in file.parents), "std")
            return path.replace("std", home, 1)
        return path

    def file_of(self, path):
        """Returns the file of a module, or None."""
        head, *rest = path.split(".")
        if head == "Rattle" and len(rest) > 2 and rest[1] == "specs":
            roots, rest = [home / "specs" for home in self.homes(rest[0])], rest[2:]
        elif head == "Rattle" and len(rest) == 2 and rest[1] == "specs":
            roots, rest = [home / "specs" for home in self.homes(rest[0])], ["Lib"]
        elif head == "lib":
            roots = [self.kit / "logic/Lib"]
        elif head == "mathlib":
            roots = [self.kit / "antt/port/mathlib/src"]
        else:
            return None
        places = (root.joinpath(*rest) for root in roots if rest)
        return next((it for place in places for it in (place.with_suffix(".antt"), place / "Lib.antt") if it.exists()), None)

    def module(self, path):
        """Returns a module, or None."""
        if path not in self.loaded:
            file = self.file_of(path)
            self.loaded[path] = Module(path, file) if file else None
        return self.loaded[path]

    def find(self, name):
        """Returns the one definition of this name in the repository."""
        files = [it for it in sorted(self.crates.glob("*/specs/**/*.antt")) if re.search(rf"^(\w+ )*pub {re.escape(name)} :", it.read_text(), re.M)]
        if len(files) != 1:
            raise Refused(f"{len(files)} modules have a definition {name}")
        crate, _, *inner = files[0].relative_to(self.crates).with_suffix("").parts
        return self.module(".".join(["Rattle", crate, "specs", *inner])).definitions[name]

    # ---- types of the code

    def variants(self, crate, file, kind):
        """Returns the variants of an enum of the code, each with the number of its fields."""
        key = (crate, tuple(file), kind)
        if key not in self.enums:
            self.enums[key] = next(filter(None, (enum_in(text, kind) for text in self.sources(crate, file))), None)
        if self.enums[key] is None:
            raise Refused(f"there is no enum {kind} in {crate}/src/{'/'.join(file)}")
        return self.enums[key]

    def sources(self, crate, file):
        """The texts in which a file of a crate may have its items."""
        for home in self.homes(crate):
            inner = (home / "src").joinpath(*file)
            for place in (inner.with_suffix(".rt"), inner / "mod.rt", home / "src/lib.rt"):
                if place.exists():
                    yield place.read_text(encoding="utf-8")

    def derives_equality(self, crate, file, kind):
        pattern = rf"#\[derive\([^)]*\bPartialEq\b[^)]*\)\]\s*(?:#\[[^\]]*\]\s*|//[^\n]*\n\s*)*pub (?:enum|struct) {kind}\b"
        return any(re.search(pattern, text) for text in self.sources(crate, file))

    # ---- names

    def member(self, path, name, seen=()):
        """What a module defines or exports under a name; None if there is nothing."""
        declared = DECLARED.match(path)
        if declared:
            return self.declared(path, declared[1], declared[2].split("."), name)
        path = self.home_path(path)
        whole = f"{path}.{name}"
        if whole in self.native:
            return IsNative(whole)
        if whole in CONSTRUCTORS:
            return Constructs(*CONSTRUCTORS[whole])
        here = self.module(path)
        if here is None:
            # the logic's own names have no file
            return IsType(whole) if path.startswith("Prim.") else self.member_of_passed(path, name, seen)
        own = self.own(here, name)
        if own or (path, name) in seen:
            return own
        for use in here.uses:
            for leaf, short in use.leaves or ():
                if short == name:
                    return self.along(use.path, leaf, seen + ((path, name),))
        return None

    def declared(self, path, crate, parts, name):
        """What the code declares: a variant of an enum, or a type."""
        if parts[-1] == "TheVariants":
            found = self.variants(crate, parts[:-2], parts[-2])
            return Constructs(name, found[name]) if name in found else None
        return IsType(f"{path}.{name}")

    def member_of_passed(self, path, name, seen):
        """A member of a module that the module above it exports."""
        above, _, last = path.rpartition(".")
        over = self.module(above) if above else None
        for use in over.uses if over else ():
            if use.leaves is None and use.own_name() == last:
                return self.member(use.path, name, seen)
        return None

    def own(self, here, name):
        if name in here.definitions:
            return Defined(here.definitions[name])
        if name in here.constructors:
            found = here.constructors[name]
            return Constructs(name, found.arity, found)
        return IsType(f"{here.path}.{name}") if name in here.types else None

    def along(self, path, leaf, seen=()):
        """The last name of a path, which may have dots: a name of an inner module, or of a type."""
        *inner, name = leaf.split(".")
        found = self.member(".".join([path, *inner]), name, seen)
        return self.member(path, name, seen) if found is None and inner else found

    def meaning(self, here, name):
        """The meaning of a name in a module, or None."""
        if name not in here.meanings:
            here.meanings[name] = self.meaning_anew(here, name)
        return here.meanings[name]

    def meaning_anew(self, here, name):
        whole = f"{here.path}.{name}"
        own = self.member(here.path, name) if whole in self.native or whole in CONSTRUCTORS else self.own(here, name)
        if own:
            return own
        for use in here.uses:
            for leaf, short in use.leaves or ():
                if short == name:
                    return self.along(self.expanded(here, use.path), leaf)
            if use.leaves is None and use.own_name() == name:
                equality = EQUALITY.match(use.path)
                if equality and self.derives_equality(equality[1], equality[2].split("."), equality[3]):
                    return IsEquality(equality[3])
                return IsModule(self.expanded(here, use.path))
        return Constructs("tt", 0) if name == "tt" else None

    def expanded(self, here, path):
        """A path whose head may be another name of a module."""
        head, _, rest = path.partition(".")
        for use in here.uses:
            if use.alias == head:
                return f"{use.path}.{rest}" if rest else use.path
        return rest if head == "package" else path

    def meaning_of_path(self, here, path):
        """The meaning of a path such as `ended.Script`: a name after a module or a type; None if it isn't one."""
        head = self.meaning(here, path[0])
        if isinstance(head, IsModule):
            return self.member(".".join([head.path, *path[1:-1]]), path[-1])
        if isinstance(head, IsType) and len(path) == 2:
            if f"{head.path}.{path[1]}" in CONSTRUCTORS:
                return Constructs(*CONSTRUCTORS[f"{head.path}.{path[1]}"])
            declared = DECLARED.match(head.path)
            if declared:
                parts = declared[2].split(".")
                return self.declared(head.path, declared[1], [*parts[:-1], "TheVariants"], path[1])
            return self.member(head.path.rpartition(".")[0], path[1])
        return self.member(".".join(path[:-1]), path[-1]) if head is None else None

    def fixity(self, here, operator):
        """The fixity of an operator in a module, as ("infixl", 65), or None."""
        name = f"◌{operator}◌"
        if name not in here.operators:
            here.operators[name] = self.fixity_in(here, name, ())
        return here.operators[name]

    def fixity_in(self, here, name, seen):
        if here is None or (here.path, name) in seen:
            return None
        if name in here.fixities:
            return here.fixities[name]
        for use in here.uses:
            for leaf, short in use.leaves or ():
                if short == name:
                    return FIXITIES.get(leaf) or self.fixity_in(self.module(self.expanded(here, use.path)), leaf, seen + ((here.path, name),))
        return None


def enum_in(text, kind):
    """The variants of an enum in a text, each with the number of its fields; None if the text doesn't have it."""
    match = re.search(rf"\benum {kind}\b[^{{;]*\{{", text)
    if not match:
        return None
    text = re.sub(r"//[^\n]*|#\[[^\]]*\]", "", text[match.end():])
    found = {}
    for variant in pieces(text[:closing(text)]):
        name, inner = re.match(r"(\w+)\s*(.*)", variant, re.S).groups()
        found[name] = len(list(pieces(inner[1:-1]))) if inner[:1] in ("(", "{") else 0
    return found


def closing(text):
    """The place of the brace that closes what was open before the text."""
    depth = 1
    for at, char in enumerate(text):
        depth += (char == "{") - (char == "}")
        if depth == 0:
            return at
    return len(text)


def pieces(text):
    """The parts of a text that commas outside of brackets separate."""
    depth, piece = 0, ""
    for char in text + ",":
        depth += (char in "({[<") - (char in ")}]>")
        if char == "," and depth == 0:
            if piece.strip():
                yield piece.strip()
            piece = ""
        else:
            piece += char
