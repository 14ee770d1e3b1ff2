"""The definitions in crates/*/specs and the contracts in crates/*/src, and which of them names which.

A definition is told by its module and its name, as ("Rattle.wi_net.specs.Net", "entry"); a type of the code, as contracts
see it, by ("type", crate, file, name). Names are looked up by the imports of their file. A local name that is also the name of
a definition counts as that one, so a closure may be too large, and never too small.
"""
import glob
import os
import re

TOKEN = re.compile(r"(?<![\w.'\-])[A-Za-z_][\w'\-]*(?:\.[A-Za-z_{][\w'\-]*)*")
NAME = r"[A-Za-z_◌][\w◌'\-/↔×⊎&|<>=≡≤+*^?!]*"
BEGINS = re.compile(r"^(?:pub|abbrev|unfoldable|record|data|module)\b|^%s\s*:\s" % NAME)
HEADED = re.compile(r"^(?:(?:abbrev|unfoldable)\s+)?(?:pub\s+)?(?:(?:record|data)\s+)?(%s)" % NAME)
BLOCK = re.compile(r"^(?:(?:pub(?:\([a-z]+\))? )?(?:struct|enum|trait|fn|const|type)\b|impl\b)")


def without_comment(line):
    at = line.find("--")
    return line if at < 0 else line[:at]


def read_import(text, names, aliases):
    text = re.sub(r"\s+", " ", text).strip()
    found = re.match(r"([\w.'\-]+)\.\{(.*)\}$", text)
    if found:
        for part in found.group(2).split(","):
            if part.strip():
                first, _, second = part.strip().partition(" as ")
                names[second.strip() or first.strip()] = (found.group(1), first.strip())
        return
    found = re.match(r"([\w.'\-]+) as ([\w'\-]+)$", text)
    if found:
        aliases[found.group(2)] = found.group(1)


class Definition:
    def __init__(self, module, name, first):
        self.module, self.name, self.first = module, name, first
        self.lines, self.makes = [], []

    @property
    def key(self):
        return (self.module, self.name)

    @property
    def code(self):
        return "\n".join(without_comment(line) for line in self.lines)

    def note_what_it_makes(self):
        """The constructors of a data type, and what is declared inside a module of parameters."""
        form = r"^\s+(?:abbrev )?(?:pub )?([\w'\- ]+?)\s*:"
        if re.match(r"^(?:pub )?data\b|^module\b", self.lines[0]):
            for line in self.lines[1:]:
                found = re.match(form, without_comment(line))
                if found:
                    self.makes += found.group(1).split()


class Module:
    """A file of definitions."""

    def __init__(self, path, name):
        self.path, self.name = path, name
        self.names, self.aliases, self.definitions = {}, {}, []
        current, waiting = None, []
        for number, line in enumerate(open(path, encoding="utf-8").read().split("\n"), 1):
            if line.startswith("use ") or line.startswith("pub use "):
                read_import(line.split("use ", 1)[1], self.names, self.aliases)
            elif line.startswith("--") or not line.strip() or line.startswith(("pub mod ", "mod ")):
                continue
            elif line.startswith("infix"):
                waiting = [line]
            elif BEGINS.match(line):
                name = "module at line %d" % number if line.startswith("module") else HEADED.match(line).group(1)
                current = Definition(self.name, name, number)
                current.lines, waiting = waiting + [line], []
                self.definitions.append(current)
            else:
                current.lines.append(line)
        for definition in self.definitions:
            definition.note_what_it_makes()


class Source:
    """A file of code."""

    def __init__(self, world, crate, path):
        self.world, self.crate, self.name = world, crate, os.path.basename(path)[:-3]
        self.lines = open(path, encoding="utf-8").read().split("\n")
        self.names, self.aliases, self.uses, self.types = {}, {}, {}, {}
        text = "\n".join(self.lines)
        for found in re.finditer(r"ghost use ([^;]*);", text):
            read_import(found.group(1), self.names, self.aliases)
        for found in re.finditer(r"^use ([^;]*);", text, re.M):
            self.read_use(re.sub(r"\s+", " ", found.group(1)))
        self.blocks = list(self.read_blocks())
        self.own_types = {found.group(1) for start, _ in self.blocks if (found := self.type_at(start))}

    def read_use(self, text):
        found = re.match(r"([\w:]+)::\{(.*)\}$", text)
        if found:
            for part in found.group(2).split(","):
                self.uses[part.split(" as ")[-1].strip()] = found.group(1)
        elif found := re.match(r"([\w:]+)::(\w+)$", text):
            self.uses[found.group(2)] = found.group(1)

    def read_blocks(self):
        """The top-level items, as their first and last lines."""
        at = 0
        while at < len(self.lines):
            if not BLOCK.match(self.lines[at]):
                at += 1
                continue
            end, is_value = at, re.match(r"^(?:pub(?:\([a-z]+\))? )?(?:const (?!fn)|type )", self.lines[at])
            while not (self.lines[end].startswith("}") or self.lines[end].rstrip().endswith("{}") or ((end == at or is_value) and self.lines[end].endswith(";"))):
                end += 1
            yield at, end
            at = end + 1

    def text(self, block):
        return "\n".join(line for line in self.lines[block[0]:block[1] + 1] if not line.strip().startswith("//"))

    def type_at(self, start):
        return re.match(r"^(?:pub(?:\([a-z]+\))? )?(?:struct|enum|type) (\w+)", self.lines[start])

    def references(self, text):
        return self.world.references(text, self.names, self.aliases, None)

    def type_named(self, name):
        if name in self.own_types:
            return ("type", self.crate, self.name, name)
        path = self.uses.get(name, "").split("::")
        if path[0] == "crate" and len(path) > 1:
            return ("type", self.crate, path[1], name)
        return self.world.exported(path[0], name) if path[0].startswith("wi_") else None

    def read_types(self):
        """What contracts see of the types: their fields, or the Value of a Model, which then stands for the fields."""
        for block in self.blocks:
            if found := self.type_at(block[0]):
                body = self.text(block)
                facts = "\n".join(re.findall(r"ghost \w+: \{(.*)\}", body))
                parts = [self.type_named(name) for name in sorted(set(re.findall(r"\b[A-Z]\w*", body))) if name != found.group(1)]
                self.types[found.group(1)] = [part for part in parts if part] + self.references(facts)
        for block in self.blocks:
            if found := re.match(r"^impl(?:<[^>]*>)? Model for (\w+)", self.lines[block[0]]):
                value = re.search(r"ghost Value = \{(.*?)\};", self.text(block), re.S)
                self.types[found.group(1)] = self.references(value.group(1)) if value else []

    def functions(self):
        """Each function: its owner (None for a free one), whether its impl block is of a trait, name, whether it is `pub`, contract."""
        for start, end in self.blocks:
            head, owner, of_trait = self.lines[start], None, False
            if found := re.match(r"^impl(?:<.*?>)? (?:\S.*? for )?(\w+)", head):
                owner, of_trait = found.group(1), " for " in head
            elif found := re.match(r"^(?:pub )?trait (\w+)", head):
                owner, of_trait = found.group(1), True
            at = start
            while at <= end:
                found = re.match(r"^(\s*)(pub(?:\([a-z]+\))? )?(?:const )?fn (\w+)", self.lines[at])
                if not found or (found.group(1) and not owner):
                    at += 1
                    continue
                contract = []
                while True:
                    line = self.lines[at]
                    contract.append(line)
                    at += 1
                    clause = line.strip().startswith(("requires", "ensures"))
                    if line.startswith(found.group(1) + "{") or line.endswith(";") or (line.endswith("{") and not clause):
                        break
                yield owner, of_trait, found.group(3), found.group(2) == "pub ", "\n".join(contract)


class World:
    """All crates of the repository, in the order of crates.txt."""

    def __init__(self, root):
        self.root = root
        listed = open(os.path.join(root, "crates.txt"), encoding="utf-8").read().split("\n")
        self.crates = [line.split(":")[0] for line in listed if line.strip() and not line.startswith("#")]
        self.modules, self.definitions, self.sources = {}, {}, {}
        for crate in self.crates:
            self.read_crate(crate)
        for source in self.sources.values():
            source.read_types()

    def read_crate(self, crate):
        folder = os.path.join(self.root, "crates", crate)
        specs = os.path.join(folder, "specs")
        for path in sorted(glob.glob(specs + "/**/*.antt", recursive=True)):
            module = Module(path, "Rattle.%s.specs.%s" % (crate, os.path.relpath(path, specs)[:-5].replace("/", ".")))
            self.modules[module.name] = module
            for definition in module.definitions:
                for name in [definition.name] + definition.makes:
                    self.definitions.setdefault((module.name, name), definition)
        for path in sorted(glob.glob(folder + "/src/*.rt")):
            source = Source(self, crate, path)
            self.sources[(crate, source.name)] = source

    def exports(self, crate):
        """The public names of a crate, each with the file that it stands in."""
        source = self.sources.get((crate, "lib"))
        found = {}
        for use in re.finditer(r"pub use ([^;]*);", "\n".join(source.lines) if source else ""):
            text = re.sub(r"\s+", " ", use.group(1))
            if many := re.match(r"([\w:]+)::\{(.*)\}$", text):
                found.update((name.strip(), many.group(1)) for name in many.group(2).split(",") if name.strip())
            elif one := re.match(r"([\w:]+)::(\w+)$", text):
                found[one.group(2)] = one.group(1)
        for line in source.lines if source else []:
            if own := re.match(r"pub (?:fn|struct|enum|trait) (\w+)", line):
                found[own.group(1)] = "lib"
        return found

    def exported(self, crate, name):
        home = self.exports(crate).get(name)
        if home is None:
            return None
        return self.exported(home, name) if home.startswith("wi_") else ("type", crate, home, name)

    def find(self, token, names, aliases, own):
        """What a name stands for: the key of a definition or of a type, or None for all others."""
        parts = token.split(".")
        if parts[0] == "Rattle":
            for end in range(len(parts) - 1, 2, -1):
                if (".".join(parts[:end]), parts[end]) in self.definitions:
                    return (".".join(parts[:end]), parts[end])
            return self.declared(token)
        if parts[0] in names:
            return names[parts[0]] if names[parts[0]] in self.definitions else self.declared(names[parts[0]][0])
        if parts[0] in aliases:
            path = (aliases[parts[0]], parts[1] if len(parts) > 1 else "")
            return path if path in self.definitions else self.declared(path[0])
        return (own, parts[0]) if (own, parts[0]) in self.definitions else None

    def declared(self, path):
        found = re.match(r"Rattle\.(wi_\w+)\.specs\.declared\.(\w+)\.(\w+)", path)
        return ("type",) + found.groups() if found else None

    def references(self, text, names, aliases, own):
        found = []
        for token in TOKEN.findall(text):
            key = self.find(token, names, aliases, own)
            if key and key not in found:
                found.append(key)
        for name, path in list(names.items()) + [(key[1], key) for key in self.definitions if key[0] == own]:
            # an operator is told by what stands between its holes; `do` uses the one that goes on
            if "◌" in name and path in self.definitions and (name.replace("◌", "") in text or (">>=" in name and "←" in text)):
                found.append(path)
        return found

    def of(self, key):
        """What a definition or a type names."""
        if key[0] == "type":
            source = self.sources.get(key[1:3])
            return source.types.get(key[3], []) if source else []
        definition = self.definitions[key]
        module = self.modules[definition.module]
        return self.references(definition.code, module.names, module.aliases, module.name)

    def whole(self, key):
        return key if key[0] == "type" else self.definitions[key].key

    def walk(self, roots, but=()):
        """The keys of the definitions and types that are reached, each after the one that first names it. Lemmas are not gone
        into, nor are those in `but`."""
        seen, found, left = set(but), [], [self.whole(key) for key in reversed(roots)]
        while left:
            key = left.pop()
            if key in seen or ".specs.lemmas." in key[0]:
                continue
            seen.add(key)
            found.append(key)
            left += [self.whole(next) for next in reversed(self.of(key))]
        return found

    def closure(self, roots, but=()):
        """The definitions among them."""
        return [self.definitions[key] for key in self.walk(roots, but) if key[0] != "type"]

    def types(self, roots, but=()):
        """The types of the code among them; a name of the code may also be a trait's."""
        return [key for key in self.walk(roots, but) if key[0] == "type" and key[1:3] in self.sources and key[3] in self.sources[key[1:3]].types]

    def of_kit(self, definition):
        """What a definition names of the kit, each by its crate and its name, whichever module of that crate passes it on."""
        module, code = self.modules[definition.module], definition.code
        paths = [path for name, path in module.names.items() if "◌" in name and all(part in code for part in name.split("◌"))]
        for token in TOKEN.findall(code):
            first, *rest = token.split(".")
            if first in module.names:
                paths.append(module.names[first])
            elif first in module.aliases and rest:
                paths.append((module.aliases[first], rest[0]))
            elif first == "Rattle" and len(rest) > 1:
                paths.append((".".join([first] + rest[:-1]), rest[-1]))
        return {(path.split(".")[1], name) for path, name in paths if path.startswith("Rattle.") and not path.startswith("Rattle.wi_")}

    def contract(self, crate, name):
        """What the contract of a public function names, or None where there is no such function."""
        for source in self.sources.values():
            if source.crate == crate:
                for owner, _, found, public, contract in source.functions():
                    if owner is None and found == name and public:
                        return source.references(contract)
        return None

    def public(self, crate):
        """What the public contracts of a crate name: those of its functions, its types and its traits."""
        exports, roots = self.exports(crate), []
        for source in self.sources.values():
            if source.crate != crate:
                continue
            mine = {name for name, home in exports.items() if home == source.name}
            for owner, of_trait, name, public, contract in source.functions():
                if (owner or name) in mine and (public or of_trait):
                    roots += source.references(contract)
            for block in source.blocks:
                found = re.match(r"^(?:pub )?(?:trait|impl(?:<.*?>)? \S.*? for) (\w+)", source.lines[block[0]])
                if found and found.group(1) in mine and " Model for " not in source.lines[block[0]]:
                    facts = re.findall(r"ghost \w+(?: =|:) \{(.*?)\};", source.text(block), re.S)
                    roots += source.references("\n".join(facts))
            roots += [("type", crate, source.name, name) for name in source.types if name in mine]
        return roots
