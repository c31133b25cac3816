"""Runs the blocks of pages that readers type; see tests/blocks.

A block is some lines behind four spaces. Its commands are run in one of these ways; any other command
fails the test, and so does a fence of another language than Python or C.

- prompt: the block's first line begins with `$ `. It is run in the repository, with `sh`, and has to
  print the lines below, up to a line `..` if there is one; a current time is compared as a time.
- whole page: another test runs all blocks of the page as they are (WHOLE).
- make: its steps are listed by `make -n` and compared (MAKE); another test runs the target.
- program: it builds callers/c/holds.c and runs it, over the library that `make library` built (PROGRAM).
- template: its comment has the word `template`. It is a command of docs/ISSUING.md, with `..` for some
  of its words, or it builds `mine.c`: then it is run with callers/c/holds.c as that, over the library.

The program in Python runs in `examples`, over the library. The one in C is a file that a command of its
page builds. If the library isn't built, what needs it is left out. Python 3, standard library alone.
"""
import os
import re
import shutil
import subprocess
import sys
import tempfile
from pathlib import Path

TOP = Path(__file__).resolve().parent.parent
LIBRARY = TOP / "callers" / "out"
PAGES = ["README.md", "docs/INSTALL.md", "docs/ISSUING.md", "docs/C.md"]
# Pages all of whose blocks another test runs as they are, and its words that read the page.
WHOLE = {"docs/ISSUING.md": ("tests/issuing.py", "'docs' / 'ISSUING.md'")}
# The page with whose commands templates are compared.
ROUND = "docs/ISSUING.md"
# What prove and install: a step that `make -n` lists, and the words of a test that run the target.
MAKE = {
    "all": ("./rpki prove", "tests/install", "ends 0 make\n"),
    "library": ("./rpki library", "tests/install", "ends 0 make\n"),
    "install": ("/lib/librpki.a", "tests/install", "ends 0 make install "),
    "install-lib": ("/lib/librpki.a", "tests/install", "ends 0 make install "),
    "check": ("tests/all", "tests/all", "run rt ci\n"),
}
# How the command begins that builds a program and runs it in `examples`.
PROGRAM = "cc -o holds "
# What runs a program in `examples`, a link, which the top can't be reached from by `..`.
THERE = " && top=$PWD && cd examples && $top/"
TIME = re.compile(r"\d{4}-\d\d-\d\dT\d\d:\d\d:\d\dZ")
NOW = re.compile(r"^(Moment|Time|Validation time):\s+\d{4}-\d\d-\d\dT\d\d:\d\d:\d\dZ$", flags=re.M)
passed = failed = 0
missing = set()


def check(what, holds, why=""):
    global passed, failed
    passed, failed = passed + bool(holds), failed + (not holds)
    if not holds:
        print(f"{what}: failed" + (f"\n{why}" if why else ""))


def has_library(what):
    """Whether what needs the library and a tool can run; if it can't, this is said once."""
    for needed, there in [("callers/out/librpki.so", (LIBRARY / "librpki.so").exists()),
                          ("cc", shutil.which("cc") or not what.startswith("cc ")),
                          ("pkg-config", shutil.which("pkg-config") or "pkg-config" not in what)]:
        if not there:
            if (what, needed) not in missing:
                print(f"left out: {what}: there is no {needed}")
            missing.add((what, needed))
            return False
    return True


def blocks(text):
    """The indented blocks of a page, each a list of lines; those inside a list's item aren't blocks."""
    block, before = [], ""
    for line in [*text.split("\n"), ""]:
        if line.startswith("    ") and (block or not before):
            block.append(line[4:])
        elif block and not line:
            yield block
            block = []
        before = line
    if block:
        yield block


def commands(block):
    """The commands of a block without prompts, with lines that `\\` continues in one."""
    return [line for line in re.sub(r"\\\n\s*", "", "\n".join(block)).split("\n") if line.strip()]


def shown(page, block, room):
    """A block with prompts: each command, and what it prints."""
    asked, wanted = None, []
    for line in [*block, "$ "]:
        if line.startswith("$ "):
            if asked:
                done = subprocess.run(["sh", "-c", asked], cwd=room, capture_output=True, text=True, timeout=900)
                printed = NOW.sub(r"\1: NOW", done.stdout.rstrip("\n")).split("\n")
                hoped = NOW.sub(r"\1: NOW", "\n".join(wanted)).split("\n")
                if hoped[-1] == "..":
                    hoped.pop()
                    printed = printed[:len(hoped)]
                check(f"{page}: {asked}", printed == hoped,
                      "page:    " + "\n         ".join(hoped) + "\nprinted: " + "\n         ".join(printed) + "\n" + done.stderr)
            asked, wanted = line[2:], []
        else:
            wanted.append(line)


def programs(page, text):
    """The page's programs in Python, run in `examples` over the library that `make library` built."""
    for program in re.findall(r"^```python\n(.*?)^```$", text, flags=re.M | re.S):
        if not has_library(f"the program of {page}"):
            continue
        about = {**os.environ, "PYTHONPATH": str(TOP / "callers" / "python"), "RPKI_LIBRARY": str(LIBRARY)}
        done = subprocess.run([sys.executable, "-c", program], cwd=TOP / "examples", env=about, capture_output=True, text=True)
        check(f"{page}: program in Python", done.returncode == 0 and done.stdout.strip(), done.stdout + done.stderr)
    for program in re.findall(r"^```c\n(.*?)^```$", text, flags=re.M | re.S):
        names = re.findall(r"^    cc .* (callers/c/\w+\.c) ", text, flags=re.M)
        check(f"{page}: program in C", any((TOP / name).read_text() == program for name in names), "no command builds it")


def listed(page, command):
    """A command of make: its steps, and the test that runs its target."""
    about = {name: value for name, value in os.environ.items() if name not in ("MAKEFLAGS", "MAKELEVEL")}
    for part in command.split(" && "):
        targets = [word for word in part.split()[1:] if "=" not in word] or ["all"]
        for target in targets:
            if not check_target(page, part, target):
                continue
            step, test, words = MAKE[target]
            check(f"{page}: {part}: {test} doesn't run it", words in (TOP / test).read_text())
            if not shutil.which("make"):
                print(f"left out: {part}: there is no make")
                continue
            done = subprocess.run(["sh", "-c", part.replace("make", "make -n", 1)], cwd=TOP, env=about, capture_output=True, text=True)
            check(f"{page}: {part}: no step {step}", done.returncode == 0 and step in done.stdout, done.stdout + done.stderr)


def check_target(page, part, target):
    check(f"{page}: {part}: no test runs it", target in MAKE)
    return target in MAKE


def as_installed(home):
    """Puts the library below a folder, as `make install-lib PREFIX=$HOME/.local` does."""
    local = home / ".local"
    for folder in ("include", "lib/pkgconfig"):
        (local / folder).mkdir(parents=True)
    shutil.copy(LIBRARY / "rpki.h", local / "include")
    for name in LIBRARY.glob("librpki.*"):
        shutil.copy(name, local / "lib" / name.name)
    said = (TOP / "callers" / "c" / "rpki.pc.in").read_text().replace("@version@", "0")
    (local / "lib" / "pkgconfig" / "rpki.pc").write_text(
        f"prefix={local}\nlibdir={local}/lib\nincludedir={local}/include\n{said}")
    return {**os.environ, "HOME": str(home), "PKG_CONFIG_PATH": f"{local}/lib/pkgconfig",
            "LD_LIBRARY_PATH": f"{local}/lib"}


def built(page, command, program):
    """A command that builds a program of callers/c/holds.c, which is run in `examples`. It is run where
    the sources are laid out as in the clone."""
    if not has_library(command):
        return
    with tempfile.TemporaryDirectory() as room:
        room = Path(room)
        for name in ("include", "callers", "crates"):
            (room / name).symlink_to(TOP / name)
        (room / "examples").symlink_to(os.readlink(TOP / "examples"))
        shutil.copy(TOP / "callers" / "c" / "holds.c", room / "mine.c")
        run = command if THERE in command else f"{command}{THERE}{program}"
        done = subprocess.run(["sh", "-c", run], cwd=room, env=as_installed(room), capture_output=True, text=True)
        check(f"{page}: {command}", done.returncode == 0 and " to " in done.stdout, done.stdout + done.stderr)


def template(page, command):
    """A template: a command of the round, with `..` for some words, or one that builds `mine.c`."""
    if command.startswith("cc ") and " mine.c " in command:
        built(page, command, "mine")
        return
    form = re.compile(re.escape(command).replace(r"\.\.", ".*"))
    lines = [line for block in blocks((TOP / ROUND).read_text()) for line in commands(block)]
    check(f"{page}: {command}: no command of {ROUND} has this form", any(form.fullmatch(line) for line in lines))


def plain(page, line):
    """A command of a block without prompts: returns how it is run, and runs it."""
    command, _, comment = (part.strip() for part in line.partition("  #"))
    if page in WHOLE:
        test, words = WHOLE[page]
        check(f"{page}: {test} doesn't run it", words in (TOP / test).read_text())
        return f"whole page, {test}"
    if "template" in comment:
        template(page, command)
        return "template"
    if command.startswith(PROGRAM):
        built(page, command, "holds")
        return "program"
    if command.split()[0] == "make":
        listed(page, command)
        return "make"
    check(f"{page}: {command}: no template, and no test runs it", False)
    return "not run"


def main():
    words = [word for word in sys.argv[1:] if word != "--list"]
    is_list = "--list" in sys.argv[1:]
    program = words[0] if words else None
    with tempfile.TemporaryDirectory() as room:
        room = Path(room)
        (room / "examples").symlink_to((TOP / "examples").resolve())
        (room / "rpki").symlink_to(program and Path(program).resolve() or TOP / "rpki")
        for page in PAGES:
            text = (TOP / page).read_text()
            fences = re.findall(r"^ *(```|~~~)(.*)$", text, flags=re.M)
            check(f"{page}: a fence of another language than Python or C", all(language in ("python", "c", "") for _, language in fences)
                  and sum(language != "" for _, language in fences) * 2 == len(fences))
            programs(page, text)
            for block in blocks(re.sub(r"^```.*?^```$", "", text, flags=re.M | re.S)):
                if block[0].startswith("$ "):
                    if is_list:
                        print(*(f"{page}: prompt: {line[2:]}" for line in block if line.startswith("$ ")), sep="\n")
                    if not (program and "printf" in block[0]):
                        shown(page, block, room)
                    continue
                for line in commands(block):
                    how = plain(page, line)
                    if is_list:
                        print(f"{page}: {how}: {line.partition('  #')[0].strip()}")
    print(f"{passed} passed, {failed} failed")
    sys.exit(1 if failed else 0)


main()
