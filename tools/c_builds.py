"""Builds the C files of the tools."""
import os
import shutil
import subprocess
import sys

from places import TOOLS


def c_compiler():
    """A C compiler; none where there is none."""
    return shutil.which("gcc") or shutil.which("cc") or shutil.which("clang")


def built(source, folder, *further):
    """A C file, by its path from the folder of the tools on, built as a program in a folder; the words of the
    compiler go on with what is given. Ends the tool where there is no compiler."""
    compiler = c_compiler() or sys.exit(f"no C compiler to build tools/{source}")
    program = os.path.join(folder, os.path.basename(source).removesuffix(".c"))
    subprocess.run([compiler, "-O2", "-Wall", f"{TOOLS}/{source}", "-o", program, *further], check=True)
    return program


def built_library(source, folder):
    """A C file, built as a library that is loaded before a program."""
    return built(source, folder, "-shared", "-fPIC")


def built_object(source, folder):
    """A C file that is no tool's, by its path, built as an object to be linked into a program."""
    compiler = c_compiler() or sys.exit(f"no C compiler to build {source}")
    made = os.path.join(folder, os.path.basename(source).removesuffix(".c") + ".o")
    subprocess.run([compiler, "-O2", "-Wall", "-fPIC", "-c", source, "-o", made], check=True)
    return made
