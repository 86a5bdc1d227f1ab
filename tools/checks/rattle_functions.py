"""The functions of a source file, as `rt fmt` lays them out, and those that an edit changes.

A function begins with a line that has `fn`, and its body behind the first line, as far to the right, that ends with an
opening brace; it ends with the first one after that which has a closing brace, as far to the right. One whose braces
have nothing between them has no body here, nor has one that is only declared.
"""
import dataclasses
import re

FUNCTION = re.compile(r"( *)(?:pub(?:\([a-z]+\))? )?(?:const )?fn (\w+)")
IMPL = re.compile(r"impl\b.*\{$")
CONTRACT = re.compile(r" +(requires|ensures|//)")


@dataclasses.dataclass
class Function:
    """A function of a file: the line before its block, or none where it has none; its name; its lines up to its body,
    and its body. `at` and `to` are its first line and the one behind its last, counted from 0."""

    block: object
    name: str
    front: list
    body: list
    at: int
    to: int

    def place(self):
        return self.block, self.name

    def signature(self):
        """Its lines without `pub`, its contract and the brace before its body."""
        lines = []
        for line in self.front:
            if CONTRACT.match(line):
                break
            lines.append(line)
        return re.sub(r"\s*\{$", "", re.sub(r"^( *)pub(\([a-z]+\))? ", r"\1", "\n".join(lines)).rstrip()).split("\n")

    def call(self, name):
        """A call of a function of another name with the same parameters."""
        signature = "\n".join(self.signature())
        start = signature.index("(", re.search(r"fn \w+(<[^(]*>)?", signature).end() - 1) + 1
        names = [part.split(":")[0].split()[-1].lstrip("&") for part in parts_of(signature, start)]
        if names[:1] == ["self"]:
            return f"self.{name}({', '.join(names[1:])})"
        return f"{'Self::' if self.block else ''}{name}({', '.join(names)})"


def parts_of(text, start):
    """The parameters that begin at a place, up to the parenthesis that ends them."""
    depth, part = 0, ""
    for char, after in zip(text[start:], text[start + 1 :] + " "):
        if char == ")" and not depth:
            break
        depth += (char in "(<[") - (char in ")>]" and part[-1:] != "-")
        if char == "," and not depth:
            yield part
            part = ""
        else:
            part += char
    if part.strip():
        yield part


def functions_of(lines):
    """The functions of a file that have a body, in order."""
    block, at = None, 0
    while at < len(lines):
        if IMPL.match(lines[at]):
            block = lines[at]
        elif lines[at] == "}":
            block = None
        begun = FUNCTION.match(lines[at])
        body = begun and body_of(lines, at, begun[1])
        if body:
            first, last = body
            yield Function(block, begun[2], lines[at:first], lines[first:last], at, last + 1)
            at = last
        at += 1


def body_of(lines, at, indent):
    """Where the body begins of a function whose first line is given, and where the brace that ends it stands; nothing
    where it has none."""
    for number in range(at, len(lines)):
        line = lines[number]
        if line.lstrip().startswith("//"):
            continue
        is_as_far = line.startswith(indent) and line[len(indent) : len(indent) + 1] not in ("", " ")
        if line.endswith(";") or is_as_far and line.endswith("}"):
            return None
        if is_as_far and line.endswith("{"):
            return number + 1, lines.index(f"{indent}}}", number)
    return None


def without_bodies(lines):
    """A file of which the bodies of functions are left out."""
    left, at = [], 0
    for function in functions_of(lines):
        left += [*lines[at : function.at], *function.front]
        at = function.to
    return left + lines[at:]


def changed(lines, edited):
    """The functions that an edit changes, as it has them; nothing where it changes anything else."""
    if without_bodies(lines) != without_bodies(edited):
        return []
    both = zip(functions_of(lines), functions_of(edited))
    return [after for before, after in both if after.body != before.body]
