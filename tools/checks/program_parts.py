"""The parts of tools/checks/check-program, by name. Each has a folder of its own, and a copy of the program in it."""
import os
import shutil
import tempfile

from checks import disk_calls, edge_checks, size_runs, wrapper_checks
from checks.parts import Part
from checks.program_cases import CASES, contract_cases
from checks.program_runs import check_case


def cases_part(name, cases, program):
    """A part of commands; they are worked out where it is run."""

    def make(checks, copy, _):
        for case in cases():
            check_case(checks, copy, case)

    return part_of_copy(name, make, program)


def part_of_copy(name, make, program):
    """A part over a copy of the program that every user may run."""

    def make_in_folder(checks):
        with tempfile.TemporaryDirectory() as folder:
            copy = shutil.copy(program, folder)
            os.chmod(folder, 0o755)
            os.chmod(copy, 0o755)
            make(checks, copy, folder)

    return Part(name, make_in_folder)


def edge_part(part, program):
    """A part whose calls of the disk and of the streams are watched."""

    def make(checks, copy, folder):
        part(checks, disk_calls.Watched(copy, disk_calls.build(folder)))

    return part_of_copy(part.__name__, make, program)


def wrapper_part(name, part, program):
    """A part of ./lineage over the program."""
    return part_of_copy(name, lambda checks, *it: part(checks, wrapper_checks.Wrapped(*it)), program)


def program_parts(program):
    """All parts, in order."""
    cases = {"commands": lambda: CASES, "contracts": contract_cases}
    cases |= {part.__name__: part for part in size_runs.PARTS}
    parts = [cases_part(*case, program) for case in cases.items()]
    parts += [edge_part(part, program) for part in edge_checks.PARTS]
    return parts + [wrapper_part(*part, program) for part in wrapper_checks.PARTS.items()]
