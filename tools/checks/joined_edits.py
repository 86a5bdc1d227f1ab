"""Edits of a source file that change bodies of functions alone, joined into one file.

A program takes minutes to build, and the edits are many. So each function that an edit changes stands in the joined
file once more, as the edit has it, and the function itself begins with calls of these: of the one whose number is
chosen when the program runs, by the variable WRONG_BODY. Where none is, each function does what it did.
"""
import os
import re

from checks.rattle_functions import changed, functions_of

# What tells which number was chosen: a C function, and how the file names it.
CHOICE = """
unsafe extern "C" {
    safe fn chosen_wrong_body() -> u32;
}
"""
CHOICE_IN_C = """#include <stdlib.h>
unsigned chosen_wrong_body(void)
{
    const char *digit = getenv("WRONG_BODY");
    unsigned chosen = 0;
    while (digit && *digit)
        chosen = 10 * chosen + (*digit++ - '0');
    return chosen;
}
"""
VARIABLE = "WRONG_BODY"


def joined(text, edits):
    """A file with all edits, each by its number the text that it makes of the file."""
    lines = text.split("\n")
    calls, further = {}, []
    for number, edited in edits.items():
        for function in changed(lines, edited.split("\n")):
            name = f"{function.name}_wrong_{number}"
            call = f"if chosen_wrong_body() == {number} {{ return {function.call(name)}; }}"
            calls.setdefault(function.place(), []).append(call)
            signature = function.signature()
            signature[0] = signature[0].replace(f"fn {function.name}", f"fn {name}", 1)
            copy = [*signature[:-1], f"{signature[-1]} {{", *function.body, "}"]
            further += [inherent(function.block), *copy, "}"] if function.block else copy
    for function in reversed(list(functions_of(lines))):
        first = function.at + len(function.front)
        lines[first:first] = calls.get(function.place(), [])
    return "\n".join([*lines, *further, CHOICE])


def inherent(block):
    """The block of the methods that a type has without a trait."""
    return re.sub(r"^(impl(?:<[^{]*?>)?) [^{]*? for ", r"\1 ", block)


def join(path, edits):
    """Puts edits into a file, each by its number the text that it makes of it, and what chooses beside it."""
    with open(path, encoding="utf-8") as file:
        text = file.read()
    with open(path, "w", encoding="utf-8") as file:
        file.write(joined(text, edits))


def is_joinable(text, edited):
    """Whether an edit changes bodies of functions alone."""
    return bool(changed(text.split("\n"), edited.split("\n")))


def put_choice(crate):
    """Puts the C function into the folder of a crate."""
    os.makedirs(f"{crate}/c", exist_ok=True)
    with open(f"{crate}/c/chosen_wrong_body.c", "w", encoding="utf-8") as file:
        file.write(CHOICE_IN_C)
