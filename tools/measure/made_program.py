"""A program of one file of this folder over the crates of the working tree, made in a copy of it."""
import os
import shutil
import subprocess
import sys

from checks.wrong_bodies import copy_tree


def made_program(folder, name, main, stands_on, of=None, modules=()):
    """The program: the crate of this name has `main`, a file of tools/measure, and modules of the crate `of` with their
    proofs; it stands on these crates. It is proved, which takes a while where the crates below it were not."""
    copy_tree(folder)
    crate = f"{folder}/crates/{name}"
    os.makedirs(f"{crate}/src")
    os.replace(f"{folder}/tools/measure/{main}", f"{crate}/src/main.rt")
    for module in modules:
        shutil.copy2(f"{folder}/crates/{of}/src/{module}.rt", f"{crate}/src")
        copy_proofs(f"{folder}/crates/{of}/proofs/{module}", f"{crate}/proofs/{module}", of, name)
    with open(f"{folder}/crates.txt", "a", encoding="utf-8") as file:
        file.write(f"{name}: {stands_on}\n")
    subprocess.run(["rt", "run"], cwd=crate, stdin=subprocess.DEVNULL, stdout=sys.stderr, check=True)
    return f"{crate}/out/{name}"


def copy_proofs(proofs, to, of, name):
    """Copies the proofs of a module, which name their crate, to another one."""
    for folder, _, files in os.walk(proofs):
        place = f"{to}{folder.removeprefix(proofs)}"
        os.makedirs(place, exist_ok=True)
        for file in files:
            with open(f"{folder}/{file}", encoding="utf-8") as given, open(f"{place}/{file}", "w", encoding="utf-8") as made:
                made.write(given.read().replace(f"Rattle.{of}.", f"Rattle.{name}."))


def told(program, line, folder=None):
    """The words that the program tells of a line."""
    ran = subprocess.run([program], input=line.encode(), stdout=subprocess.PIPE, cwd=folder, check=True)
    return ran.stdout.split()
