"""Reads definitions from specs/ and types from src/: their sentences, and what they name."""
import collections
import dataclasses
import functools
import re

from places import TOP


class Problem(Exception):
    """Something that the sources lack, in one line."""


@dataclasses.dataclass
class Item:
    """A definition, or a type of the program."""

    file: str
    name: str
    kind: str
    line: int
    sentence: str
    note: str = ""
    parts: list = dataclasses.field(default_factory=list)
    references: list = dataclasses.field(default_factory=list)


@dataclasses.dataclass
class Scope:
    """What names stand for: each a path and a name there, or a path that an alias stands for."""

    names: dict = dataclasses.field(default_factory=dict)
    aliases: dict = dataclasses.field(default_factory=dict)

    def add_uses(self, text):
        for match in USE.finditer(text):
            self.add_use("", use_from(text, match.end()))

    def add_use(self, path, text):
        """What one `use` item brings: names, those in the braces behind a path, or an alias of a path."""
        head, brace, inner = text.partition("{")
        name, _, other = head.strip().partition(" as ")
        if brace:
            for entry in entries_of(inner.rpartition("}")[0]):
                self.add_use(f"{path}{name}", entry)
        elif "." not in name:
            self.names[other or name] = (path.rstrip("."), name)
        elif other:
            self.aliases[other] = f"{path}{name}"

    @functools.cached_property
    def operators(self):
        """The names that have places for operands, by each of their signs."""
        mixed = [name for name in self.names if "◌" in name]
        return {sign: name for name in mixed for sign in name.split("◌") if sign}

    def target(self, token, bound):
        """What a token names, or None."""
        head, *others = token.split(".") if token.strip(".") else [token]
        if head in bound:
            return None
        if head == "Rattle" and len(others) > 2:
            return ".".join([head, *others[:-1]]), others[-1]
        if others and head in self.aliases:
            return self.aliases[head], others[0]
        if token in self.operators:
            return self.names[self.operators[token]]
        return self.names.get(head)


USE = re.compile(r"\buse (?=Rattle\.)")
TOKEN = re.compile(r'"(?:[^"\\]|\\.)*"|--.*|//.*|[(){},;]|[^\s(){},;"]+')
PLAIN = re.compile(r"[^\W\d][\w'-]*$")
# The library's cases that are written small.
CASES = ("zero", "suc", "true", "false", "pos", "negsuc")


def use_from(text, start):
    """The `use` item from here up to its end, outside of braces: a semicolon, or the end of the line."""
    depth = 0
    for match in re.compile(r"[{};\n]").finditer(text, start):
        depth += (match[0] == "{") - (match[0] == "}")
        if depth == 0 and match[0] in ";\n":
            return text[start : match.start()]
    return text[start:]


def entries_of(text):
    """The entries of a `use` item's braces, which may have braces of their own."""
    depth, entry = 0, ""
    for part in re.split(r"([{},])", text):
        depth += (part == "{") - (part == "}")
        if part == "," and depth == 0:
            yield entry
            entry = ""
        else:
            entry += part
    if entry.strip():
        yield entry


def tokens_of(text):
    return [token for token in TOKEN.findall(text) if not token.startswith(("--", "//"))]


def group_names(tokens, start):
    """The names of a group `(x y : T)` that opens before this index."""
    end = start
    while end < len(tokens) and PLAIN.match(tokens[end]):
        end += 1
    return tokens[start:end] if end < len(tokens) and tokens[end] == ":" else []


def bound_names(tokens):
    """The variables that a text binds by groups, `λ`, `let` and `←`."""
    bound = set()
    for i, token in enumerate(tokens):
        if token in "({":
            bound.update(group_names(tokens, i + 1))
        elif token in ("λ", "let"):
            for name in tokens[i + 1 :]:
                bound.add(name.rstrip("."))
                if name.endswith(".") or name == "=":
                    break
        elif token == "←":
            bound.add(tokens[i - 1])
    return bound


def references_of(tokens, scope, bound):
    """What the tokens name, in order; the names of fields in a record's value are no names."""
    found, depth = [], 0
    for i, token in enumerate(tokens):
        depth += (token == "{") - (token == "}")
        is_field = depth > 0 and tokens[i + 1 : i + 2] == ["="]
        # A step of `do` goes by the operator that joins steps.
        target = None if is_field else scope.target(">>=" if token == "←" else token, bound)
        if target:
            found.append(target)
    return found


def sentence_of(comment):
    """The lines of a comment as a sentence."""
    text = " ".join(line.strip() for line in comment).strip()
    if text and text[-1] not in ".:":
        text += "."
    return text[:1].upper() + text[1:]


# ---- definitions


class Definitions:
    """A file of definitions."""

    MODIFIERS = r"(?:(?:abbrev|unfoldable|pub|record|data) )"
    IS_HEAD = re.compile(rf"({MODIFIERS}+)(\S+)|(\S+) :(?:\s|$)")

    def __init__(self, file, path, graph):
        self.file, self.path, self.graph = file, path, graph
        with open(f"{TOP}/{file}", encoding="utf-8") as source:
            self.lines = source.read().split("\n")
        self.scope = Scope()
        self.scope.add_uses("\n".join(self.lines))
        self.sentence, self.items, self.owners = "", {}, {}
        self.chunks = collections.defaultdict(list)
        self.read_items()
        for item in self.items.values():
            self.scope.names[item.name] = (path, item.name)
        for part, owner in self.owners.items():
            self.scope.names[part] = (path, owner)
        for item in self.items.values():
            self.read_references(item)

    def read_items(self):
        comment, item, base = [], None, 0
        for number, line in enumerate(self.lines, 1):
            text = line.strip()
            indent = len(line) - len(line.lstrip())
            if indent == 0 and text:
                base = 0
            if not text or text.startswith("-- ----"):
                comment = []
            elif text.startswith("--"):
                comment.append(text[2:])
            elif re.match(r"(abbrev |unfoldable )?mutual$", text):
                item, base = None, 2
            elif text.startswith("use "):
                self.sentence = self.sentence or sentence_of(comment)
            elif item is None and not self.is_head(text):
                continue
            elif indent == base and self.is_head(text):
                item, comment = self.add_item(number, text, comment), []
            else:
                self.add_line(item, line, indent - base, comment)
                comment = []

    def formula_of(self, item):
        """An item as it stands, without the comments among its lines: up to the next one, or an empty line."""
        lines = [self.lines[item.line - 1]]
        base = len(lines[0]) - len(lines[0].lstrip())
        is_own = re.compile(rf"{re.escape(item.name)}(?:\s|$)|[)}}\]]")
        for line in self.lines[item.line :]:
            text, indent = line.strip(), len(line) - len(line.lstrip())
            if not text or indent <= base and not is_own.match(text):
                break
            if not text.startswith("--"):
                lines.append(line)
        return "\n".join(line[base:] for line in lines)

    def is_head(self, text):
        return self.IS_HEAD.match(text) and not text.startswith("infix")

    def add_item(self, number, text, comment):
        modifiers, name, plain = self.IS_HEAD.match(text).groups()
        kind = next((kind for kind in ("record", "data") if kind in (modifiers or "").split()), "")
        item = Item(self.file, name or plain, kind, number, sentence_of(comment))
        self.items[item.name] = item
        self.chunks[item.name].append(text)
        return item

    def add_line(self, item, line, indent, comment):
        """A line under an item's head: an equation, a field, a constructor, or what goes on."""
        chunks, text = self.chunks[item.name], line.strip()
        if indent == (2 if item.kind else 0):
            chunks.append(text)
            part = re.match(r"(?:pub )?(\S+) :", text)
            if item.kind and part:
                item.parts.append((part[1], sentence_of(comment)))
                if item.kind == "data":
                    self.owners[part[1]] = item.name
        else:
            chunks[-1] += "\n" + text

    def read_references(self, item):
        shared = set()
        for number, chunk in enumerate(self.chunks[item.name]):
            tokens = tokens_of(chunk)
            bound = bound_names(tokens) | shared
            if number == 0 and item.kind:
                shared = bound_names(tokens)
            elif item.kind == "record":
                shared |= {item.parts[number - 1][0]}
            elif number > 0 and not item.kind:
                bound |= self.pattern_names(tokens)
            item.references += references_of(tokens, self.scope, bound)

    def equations(self, name):
        """The equations of a definition: the tokens on the left of each, those on the right, and what the
        latter name."""
        for chunk in self.chunks[name][1:]:
            tokens = tokens_of(chunk)
            middle = tokens.index("=")
            bound = bound_names(tokens) | self.pattern_names(tokens)
            right = tokens[middle + 1 :]
            yield tokens[:middle], right, references_of(right, self.scope, bound)

    def pattern_names(self, tokens):
        """The variables on the left of an equation: what names neither a case nor a definition."""
        left = tokens[: tokens.index("=")] if "=" in tokens else []
        return {token for token in left if PLAIN.match(token) and not self.is_case(token)}

    def is_case(self, token):
        if token in self.items or token in self.owners:
            return True
        path, name = self.scope.names.get(token, ("..", "-"))
        is_type = ".declared." in path or ".contracts." in path
        if path.split(".")[1] in self.graph.crates and not is_type:
            return name in self.graph.definitions(path).owners
        return name[0].isupper() or name in CASES


# ---- types of the program


class Module:
    """A file of the program's code: its types, and what their names stand for."""

    RUST_USE = re.compile(r"^(?:pub )?use ([\w:]+?)(?:::\{([^}]*)\}|::(\w+)(?: as (\w+))?);", re.M)
    ITEM = re.compile(r"^(?:pub(?:\(crate\))? )?(enum|struct|trait|type|const) (\w+)", re.M)

    def __init__(self, file, crate):
        self.file, self.crate = file, crate
        with open(f"{TOP}/{file}", encoding="utf-8") as source:
            self.text = source.read()
        self.sentence = sentence_of(re.findall(r"^//!(.*)$", self.text, re.M))
        self.scope = Scope()
        self.scope.add_uses("\n".join(re.findall(r"^ghost (use [^;]*;)", self.text, re.M)))
        self.uses = dict(self.rust_uses())
        self.starts = {match[2]: match.start() for match in self.ITEM.finditer(self.text)}

    def rust_uses(self):
        for path, names, name, other in self.RUST_USE.findall(self.text):
            for entry in (names or f"{name} as {other or name}").split(","):
                original, _, renamed = entry.strip().partition(" as ")
                yield renamed or original, (path.split("::")[0], original)

    def crate_of(self, name):
        """The crate in which a type's name is to be looked for, and its name there."""
        if name in self.starts:
            return self.crate, name
        crate, original = self.uses.get(name, (None, name))
        return (self.crate if crate in ("crate", "super", "self") else crate), original

    def formula_of(self, item):
        """The code of a type, without comments and attributes."""
        code = code_from(self.text, self.starts[item.name])
        lines = [line for line in code.split("\n") if not line.strip().startswith(("//", "#["))]
        return "\n".join(filter(str.strip, lines))

    def item(self, name):
        start = self.starts[name]
        kind = self.ITEM.match(self.text, start)[1]
        body = code_from(self.text, start)
        number = self.text.count("\n", 0, start) + 1
        item = Item(self.file, name, kind, number, sentence_of(doc_above(self.text[:start])))
        view = re.search(rf"^impl(?:<[^>]*>)? Model for {name}\b", self.text, re.M)
        if view:
            self.add_view(item, code_from(self.text, view.start()))
            return item
        if kind == "const":
            item.note = re.sub(r"\s+", " ", body.partition(" = ")[2].rstrip(";"))
        item.parts = list(parts_of_type(kind, body))
        self.add_references(item, body)
        return item

    def add_view(self, item, code):
        """A type that clauses see as another value is that value to them."""
        value = re.search(r"ghost Value = \{ (.*?) \};", code, re.S)[1]
        scope = Scope(dict(self.scope.names), dict(self.scope.aliases))
        scope.add_uses("\n".join(re.findall(r"ghost (use [^;]*;)", code)))
        item.note = f"seen as `{re.sub(r'Items', 'List', value)}`"
        item.references = references_of(tokens_of(value), scope, set())

    def add_references(self, item, body):
        for clause in ghost_texts(body):
            tokens = tokens_of(clause)
            item.references += references_of(tokens, self.scope, bound_names(tokens))
        code = re.sub(r"///.*", "", body)
        names = re.findall(r"\b[A-Z]\w*", code)
        item.references += [(self, name) for name in names if name != item.name]


def code_from(text, start):
    """The code from here up to its end: the brace that closes it, or a semicolon."""
    depth = 0
    for match in re.compile(r"//.*|[{}();\[\]]").finditer(text, start):
        depth += (match[0] in "{([") - (match[0] in "})]")
        if depth == 0 and match[0] in ("}", ";"):
            return text[start : match.end()]
    raise Problem(f"code without an end: {text[start : start + 60]!r}")


def doc_above(text):
    """The lines of the doc comment that stands at the end of a text, attributes passed over."""
    lines = []
    for line in reversed(text.rstrip("\n").split("\n")):
        if line.startswith("///"):
            lines.insert(0, line[3:])
        elif not line.startswith("#["):
            break
    return lines


def ghost_texts(code):
    """The clauses in a text of code, each without its braces."""
    for match in re.finditer(r"\b(?:requires|ensures|ghost \w+:)(?: \w+)? \{", code):
        yield code_from(code, match.end() - 1)[1:-1]


def parts_of_type(kind, body):
    """The variants of an enum, the fields of a struct, the meanings and calls of a trait."""
    line = {
        "enum": r"()([A-Z]\w*)",
        "struct": r"pub ()(\w+):",
        "trait": r"(ghost|fn) (\w+)",
    }.get(kind)
    comment = []
    for text in body.split("\n")[1:]:
        found = line and re.match(rf"    {line}", text)
        if text.startswith("    ///"):
            comment.append(text[7:])
        elif found:
            yield found[2], sentence_of(comment)
            comment = []
        elif not text.strip().startswith("#["):
            comment = []
