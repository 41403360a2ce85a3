"""Runs the code that stands in documents, so that what a reader copies works.

    python3 hosts/check_documents.py README.md docs/TUTORIAL.md

Fenced blocks of python are run in one namespace for each document, in their order; a block of c or rust is a program,
compiled with all warnings as errors and run. A fenced block `output` after it is what it must have printed. Needs the
proved static library and the Python package's shared library; where cc or cargo is missing it says so.
"""

import contextlib
import io
import os
import re
import shutil
import subprocess
import sys
import tempfile

ROOT = os.path.abspath(os.path.join(os.path.dirname(os.path.abspath(__file__)), ".."))
ARCHIVE = os.path.join(ROOT, "target/staticlib/libraimsklo.a")
CRATE = os.path.join(ROOT, "hosts/rust")
STRICT = ["-std=c99", "-Wall", "-Wextra", "-pedantic", "-Werror", "-O2", "-I" + os.path.join(ROOT, "include")]


def blocks(text):
    """(language, code, what it prints or None, line) of each fenced block, in order."""
    found = []
    for match in re.finditer(r"^```(\w+)\n(.*?)^```$", text, flags=re.S | re.M):
        language, code = match.groups()
        if language == "output":
            before = found.pop()
            found.append(before[:2] + (code,) + before[3:])
        else:
            found.append((language, code, None, text.count("\n", 0, match.start()) + 1))
    return found


def run(command, folder):
    done = subprocess.run(command, cwd=folder, stdout=subprocess.PIPE, stderr=subprocess.PIPE, text=True)
    if done.returncode != 0:
        raise RuntimeError(f"{' '.join(command)} ended with {done.returncode}\n{done.stdout}{done.stderr}")
    return done.stdout


class Document:
    """The programs of one document, run in a folder of their own."""

    def __init__(self, folder):
        self.folder = folder
        self.names = {"__name__": "__main__"}

    def python(self, code):
        printed, before = io.StringIO(), os.getcwd()
        os.chdir(self.folder)
        try:
            with contextlib.redirect_stdout(printed):
                exec(compile(code, "document", "exec"), self.names)
        finally:
            os.chdir(before)
        return printed.getvalue()

    def c(self, code):
        source = os.path.join(self.folder, "program.c")
        with open(source, "w") as file:
            file.write(code)
        run(["cc", *STRICT, source, ARCHIVE, "-lm", "-o", os.path.join(self.folder, "program")], self.folder)
        return run(["./program"], self.folder)

    def rust(self, code):
        crate = os.path.join(self.folder, "crate")
        os.makedirs(os.path.join(crate, "src"), exist_ok=True)
        with open(os.path.join(crate, "Cargo.toml"), "w") as file:
            file.write('[package]\nname = "program"\nversion = "0.0.0"\nedition = "2021"\n')
            file.write(f'[dependencies]\nraimsklo = {{ path = "{CRATE}" }}\n[workspace]\n')
        with open(os.path.join(crate, "src/main.rs"), "w") as file:
            file.write("#![deny(warnings)]\n" + code)
        return run(["cargo", "run", "--quiet", "--offline"], crate)


TOOLS = {"python": "python3", "c": "cc", "rust": "cargo"}


def check(path):
    """How many blocks were run; raises where one fails or prints something else."""
    with open(os.path.join(ROOT, path)) as file:
        text = file.read()
    done = 0
    with tempfile.TemporaryDirectory() as folder:
        document = Document(folder)
        for language, code, wanted, line in blocks(text):
            if language not in TOOLS:
                continue
            if shutil.which(TOOLS[language]) is None:
                print(f"{path}:{line}: not run, no {TOOLS[language]}")
                continue
            try:
                printed = getattr(document, language)(code)
            except Exception as error:
                raise RuntimeError(f"{path}:{line}: {error!r}") from error
            if wanted is not None and printed != wanted:
                raise RuntimeError(f"{path}:{line}: printed\n{printed}in place of\n{wanted}")
            done += 1
    return done


def main():
    sys.path.insert(0, os.path.join(ROOT, "hosts/python"))
    done = {}
    for path in sys.argv[1:]:
        try:
            done[path] = check(path)
        except RuntimeError as error:
            print(error)
            return 1
    print("code in documents, run: " + ", ".join(f"{path} {count}" for path, count in done.items()))
    return 0


if __name__ == "__main__":
    sys.exit(main())
