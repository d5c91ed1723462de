"""The proved library as it is compiled, and C programs that are linked with it, for this machine's processor."""
import pathlib
import re
import subprocess
import sys

ROOT = pathlib.Path(__file__).resolve().parent.parent
LIBRARY = ROOT / "target" / "staticlib" / "libcapi.a"
REFERENCE = ROOT / "reference" / "target" / "release" / "reference"
FLAGS = ["-std=c99", "-O2", "-fPIC"]


def run(words, folder=ROOT):
    """Runs a command that has to succeed, and gives what it printed; that is shown where it does not."""
    into = {"stdout": subprocess.PIPE, "stderr": subprocess.STDOUT}
    done = subprocess.run(words, cwd=folder, stdin=subprocess.DEVNULL, text=True, **into)
    if done.returncode != 0:
        sys.exit(f"{done.stdout}\nFAILED: {' '.join(map(str, words))}")
    return done.stdout


def newer_than_the_crates(made):
    """The file is there, and no file of the crates is newer, but for what rt makes in their out/."""
    parts = [part for part in (ROOT / "crates").glob("*/*") if part.name != "out"]
    files = [ROOT / "crates.txt", *(path for part in parts for path in (part, *part.rglob("*")) if path.is_file())]
    return made.is_file() and made.stat().st_mtime > max(path.stat().st_mtime for path in files)


def make_library():
    if not newer_than_the_crates(LIBRARY):
        run([ROOT / "tools" / "archive"])


def make_reference():
    run(["cargo", "build", "--release", "--offline", "--quiet"], ROOT / "reference")


def program_with_library(program, source, words=()):
    """A C file with words for the compiler, linked with the library; gives the command line that runs it."""
    run(["cc", *FLAGS, *words, source, LIBRARY, "-o", program])
    return [program]


# ---- pages

def put_tables(page, tool, tables):
    """What a tool measured, into the part of a page that is the tool's."""
    path = ROOT / "docs" / page
    text = path.read_text(encoding="utf-8")
    between = re.compile(rf"(<!-- {tool} -->\n).*?(<!-- end of {tool} -->\n)", re.S)
    path.write_text(between.sub(lambda found: found[1] + tables + "\n" + found[2], text), encoding="utf-8")
