"""The definitions of a tree of this repository: what stands in specs/ and, of types, constants and traits, in src/; and what each word there means."""

import io
import re
import subprocess
import tarfile
from dataclasses import dataclass, field
from pathlib import Path

TOP = Path(__file__).resolve().parents[2]

# A word of antt: a field with its dot, a bracket or a mark, or all up to one. A name of Rattle also ends at the marks of its types.
WORD = re.compile(r"\.[^\s(){}\[\],;.]+|[(){}\[\],;.]|[^\s(){}\[\],;.]+")
RATTLE_WORD = re.compile(r"\.[^\s(){}\[\],;.<>:&]+|[(){}\[\],;.<>:&]|[^\s(){}\[\],;.<>:&]+")

# Words that say how a definition may be used, and nothing of what it is.
MODIFIERS = ("pub", "abbrev", "unfoldable")

READ = re.compile(r"crates/\w+/(?:specs/.*\.antt|src/.*\.rt)$|docs/PROMISES\.md$")


def files_here():
    """The files of the work tree that are read, by their names."""
    files = [TOP / "docs/PROMISES.md", *TOP.glob("crates/*/specs/**/*.antt"), *TOP.glob("crates/*/src/**/*.rt")]
    return {str(file.relative_to(TOP)): file.read_text() for file in files}


def files_at(commit):
    """Those of a commit."""
    packed = subprocess.run(["git", "archive", commit], cwd=TOP, stdout=subprocess.PIPE, check=True).stdout
    with tarfile.open(fileobj=io.BytesIO(packed)) as archive:
        members = [member for member in archive if member.isfile() and READ.match(member.name)]
        return {member.name: archive.extractfile(member).read().decode() for member in members}


@dataclass
class Item:
    """A definition of specs/, or a type, constant or trait of src/: its lines, and the comment above them."""

    module: "Module"
    name: str
    comment: list = field(default_factory=list)
    lines: list = field(default_factory=list)
    has_constructors: bool = False
    meanings: list = None

    def words(self):
        """Its words, without comments and modifiers."""
        text = re.sub(r"(^|\s)(--|//)(\s.*)?$", "", "\n".join(self.lines), flags=re.M)
        form = WORD if self.module.file.startswith("specs/") else RATTLE_WORD
        return [word for word in form.findall(text) if word not in MODIFIERS]


@dataclass
class Member:
    """A constructor or variant, by the item that has it."""

    item: Item
    name: str


@dataclass
class Module:
    """A file: its items and their constructors; what it imports, each as a path and a name there; the modules that it names."""

    crate: str
    file: str
    items: dict = field(default_factory=dict)
    members: dict = field(default_factory=dict)
    imports: dict = field(default_factory=dict)
    aliases: dict = field(default_factory=dict)
    # Of a file of src/: the crates from which it takes names.
    crates: dict = field(default_factory=dict)
    scope: dict = None

    def __str__(self):
        return f"{self.crate}/{self.file}"


def read_imports(module, text):
    for path, names, alias in re.findall(
        r"^(?:pub |ghost )*use (Rattle[\w.]*?)(?:\.\{([^}]*)\})?(?: as (\w+))?;?$", text, re.M
    ):
        if not names:
            module.aliases[alias or path.rpartition(".")[2]] = path
        for name in filter(None, (part.strip() for part in names.split(","))):
            origin, _, short = name.partition(" as ")
            module.imports[short or origin] = (path, origin)


def read_specs(module, text):
    """A definition is a signature with its equations, or a type with its members. An anonymous module gives parameters to those that stand in it."""
    read_imports(module, text)
    comment, item, parameters, fixity = [], None, None, []
    for line in text.splitlines():
        bare = line.strip()
        indent = len(line) - len(line.lstrip())
        base = 2 if parameters and indent else 0
        if not bare:
            continue
        if indent > base:
            if item:
                item.lines.append(line[base:])
                named = re.match(r"([^:(]*) :( |$)", bare)
                if named and item.has_constructors:
                    module.members.update((name, Member(item, name)) for name in named[1].split())
            continue
        if not indent:
            parameters = None
        declared = re.sub(r"^((pub|abbrev|unfoldable) )*", "", bare)
        found = re.match(r"(?:record|data) (\S+)|(\S+) : ", declared)
        if bare.startswith("--"):
            # The first comment of a file is about the file, and a comment ends what stands above it.
            comment, item = (comment if item is None else []) + [bare], None
        elif bare.startswith("module "):
            comment, item, parameters = [], None, bare
        elif re.match(r"(pub )?(use|mod) ", bare):
            comment, item = [], None
        elif re.match(r"infix[lr]? ", bare):
            fixity = [bare]
        elif found:
            name = found[1] or found[2]
            item = module.items[name] = Item(module, name, comment, has_constructors=declared.startswith("data "))
            item.lines = [*([parameters] if parameters else []), *fixity, line[base:]]
            comment, fixity = [], []
        else:
            # An equation, which may have a comment of its own.
            item = item or list(module.items.values())[-1]
            item.lines += [*comment, line[base:]]
            comment = []


def read_source(module, text):
    """The types, constants and traits of a file of src/, and what its clauses import."""
    read_imports(module, text)
    for path, names in re.findall(r"^(?:pub )?use ([\w:]+)::(\{[^}]*\}|\w+);", text, re.M):
        module.crates.update((name, path.split("::")[0]) for name in re.findall(r"\w+", names))
    lines = text.splitlines()
    for at, line in enumerate(lines):
        found = re.match(r"(?:pub(?:\(\w+\))? )?(?:struct|enum|const|static|trait) (\w+)", line)
        if not found:
            continue
        end, above = at, at
        if not line.endswith((";", "}")):
            end = next(n for n in range(at + 1, len(lines)) if lines[n].startswith(("}", "]", ")")))
        while re.match(r"///|#\[", lines[above - 1]):
            above -= 1
        item = module.items[found[1]] = Item(module, found[1])
        item.comment = [line for line in lines[above:at] if line.startswith("///")]
        # Of a method that a trait gives a body the contract alone.
        declared = re.sub(r"\n    \{\n(.*\n)*?    \}", "", "\n".join(lines[at : end + 1]))
        item.lines = [line for line in declared.splitlines() if line.strip() and not re.match(r"\s*///", line)]


def renamed(text, renames):
    return re.sub(r"[^\s(){}\[\],;.]+", lambda found: renames.get(found[0], found[0]), text) if renames else text


def by_words(names):
    """Names with what they mean. A name with places for its arguments, as ◌at◌is◌at◌, is each of its words."""
    parts = [(part, meaning) for name, meaning in names.items() if "◌" in name for part in name.split("◌") if part]
    return {**names, **dict(parts)}


class Tree:
    """The modules of a tree, by the paths by which antt has them; those of src/ stand below `specs.declared`."""

    def __init__(self, files, renames=None):
        self.files = {name: renamed(text, renames) for name, text in files.items()}
        self.modules = {}
        for name, text in sorted(self.files.items()):
            if not name.startswith("crates/"):
                continue
            _, crate, kind, file = name.split("/", 3)
            module = Module(crate, f"{kind}/{file}")
            inner = file.rpartition(".")[0].replace("/", ".")
            if kind == "specs":
                read_specs(module, text)
                self.modules[f"Rattle.{crate}.specs.{inner}"] = module
            else:
                read_source(module, text)
                inner = re.sub(r"(^|\.)(lib|main|mod)$", "", inner)
                self.modules[f"Rattle.{crate}.specs.declared.{inner}".rstrip(".")] = module

    def declared(self, path):
        """The type to which a path below `specs.declared` leads."""
        outer, _, name = path.rpartition(".")
        return self.modules[outer].items.get(name) if outer in self.modules else None

    def found(self, path, name):
        """To what a path and a name lead: an item or a member of one, or the name as the library has it."""
        variants = self.declared(path.removesuffix(".TheVariants"))
        if variants:
            return variants if name == variants.name else Member(variants, name)
        module = self.modules.get(path.removesuffix(".TheConstants"))
        if not module:
            return f"{path}.{name}"
        if name in module.imports and name not in module.items:
            return self.found(*module.imports[name])
        return module.items.get(name) or module.members[name]

    def scope(self, module):
        """What each name means in a file."""
        if module.scope is None:
            names = {short: self.found(*origin) for short, origin in module.imports.items()}
            if module.file.startswith("src/"):
                names = {**self.seen_in_source(module), **names}
            module.scope = by_words({**names, **module.members, **module.items})
        return module.scope

    def seen_in_source(self, module):
        """The types, constants and traits of the crate, and those that the file takes from others."""
        sources = [other for other in self.modules.values() if other.file.startswith("src/")]
        own = {name: item for other in sources if other.crate == module.crate for name, item in other.items.items()}
        taken = {
            name: other.items[name]
            for name, crate in module.crates.items()
            for other in sources
            if other.crate == crate and name in other.items
        }
        return {**own, **taken}

    def meanings(self, item):
        """The words of an item, each with what it means: an item or a member of one, a name of the library, or nothing."""
        if item.meanings is None:
            scope, aliases, words = self.scope(item.module), item.module.aliases, item.words()
            item.meanings = [
                (word, self.found(aliases[word], after[1:]) if word in aliases and after.startswith(".") else scope.get(word))
                for word, after in zip(words, [*words[1:], ""])
            ]
        return item.meanings

    def reached(self, start):
        """The items of which one is made, nearest first."""
        order, seen = [start], {id(start)}
        for item in order:
            for _, meaning in self.meanings(item):
                other = meaning.item if isinstance(meaning, Member) else meaning
                if isinstance(other, Item) and id(other) not in seen:
                    seen.add(id(other))
                    order.append(other)
        return order[1:]
