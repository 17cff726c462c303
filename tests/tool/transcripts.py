#!/usr/bin/env python3
"""Runs the transcripts of the command, and compares what it prints, on both streams together, with what they have.

    tests/tool/transcripts.py --tool target/bin/noemathu [NAME...]
    tests/tool/transcripts.py --tool target/bin/noemathu --accept [NAME...]    writes what it prints now into them
    tests/tool/transcripts.py --tool target/bin/noemathu --readme FILE.a       what README.md shows, with this library

A transcript is a file of tests/tool/transcripts/. A line that begins with `$ ` is a command for the shell, lines with `> `
go on with it, and what stands behind is what it prints; a last line [1] is a status other than 0. Lines before the first
command, and those that begin with `# `, are for the reader. Each transcript runs in a folder of its own, with the tool in
PATH, in which `bundles` makes the bundles of tests/tool/refused.py. What libxml2 says of a text behind its line is compared
only where it is the libxml2 whose words the transcripts have. Where no terminal can be had, by `script`, the commands that
need one are left out, and their number is said.

Of README.md the blocks that begin with a command are one transcript, without statuses, run where the repository's folders
stand; and the lines of Python are run by doctest.
"""
import argparse
import difflib
import doctest
import os
import re
import shutil
import subprocess
import sys
import tempfile
from pathlib import Path

HERE = Path(__file__).resolve().parent
WORDS_OF = "libxml2 2.9.14"


def parts(lines):
    """The lines before the first command, and each command with the lines behind it."""
    head, commands = [], []
    for line in lines:
        if line.startswith(("$ ", "# ")) and (commands or line[0] == "$"):
            commands.append([[line], []])
        elif line.startswith("> ") and commands and not commands[-1][1]:
            commands[-1][0].append(line)
        elif commands:
            commands[-1][1].append(line)
        else:
            head.append(line)
    return head, commands


def ran(command, folder, environment):
    """What a command prints, and its status, as lines of a transcript."""
    text = "\n".join(line[2:] for line in command)
    done = subprocess.run(["sh", "-c", text], cwd=folder, env=environment, stdin=subprocess.DEVNULL,
                          stdout=subprocess.PIPE, stderr=subprocess.STDOUT)
    printed = done.stdout.decode("utf-8", "backslashreplace").replace("\0", "\\0")
    lines = printed.split("\n")
    if lines[-1] == "":
        lines.pop()
    else:
        lines[-1] += "\\"
    return lines + ([f"[{done.returncode}]"] if done.returncode else [])


def without_words(lines):
    """Lines without what libxml2 says behind the number of a line."""
    return [re.sub(r"^(noemathu: [^:]+:\d+: ).*", r"\1", line) for line in lines]


def has_terminal():
    try:
        return subprocess.run(["script", "-qec", "true", "/dev/null"], stdin=subprocess.DEVNULL, stdout=subprocess.DEVNULL,
                              stderr=subprocess.DEVNULL).returncode == 0
    except FileNotFoundError:
        return False


def replayed(text, environment, prepare=lambda folder: None, left_out=lambda command: False):
    head, commands = parts(text)
    lines = list(head)
    folder = tempfile.mkdtemp()
    try:
        prepare(Path(folder))
        for command, printed in commands:
            if left_out(command):
                lines += command + printed
            else:
                lines += command + (ran(command, folder, environment) if command[0][0] == "$" else [])
    finally:
        shutil.rmtree(folder)
    return lines, sum(command[0][0] == "$" for command, _ in commands)


def shown_commands(text):
    """The lines of the indented blocks that begin with a command."""
    lines, wanted = [], False
    for before, line in zip([""] + text, text):
        if line.startswith("    ") and not before.startswith("    "):
            wanted = line.startswith("    $ ")
        if wanted and line.startswith("    "):
            lines.append(line[4:])
    return lines


def check_readme(library, environment):
    readme = HERE.parent.parent / "README.md"

    def prepare(folder):
        for name in ("include", "example"):
            (folder / name).symlink_to(readme.parent / name)
        (folder / "target" / "staticlib").mkdir(parents=True)
        (folder / "target" / "staticlib" / "libnoemathu.a").symlink_to(Path(library).resolve())

    shown = shown_commands(readme.read_text().splitlines())
    lines, count = replayed(shown, environment, prepare)
    lines = [line for line in lines if not re.fullmatch(r"\[\d+\]", line)]
    difference = list(difflib.unified_diff(shown, lines, "README.md", "now", lineterm=""))
    print("\n".join(difference), end="\n" if difference else "")
    failed, tried = doctest.testfile(str(readme), module_relative=False)
    if difference or failed or not count or not tried:
        sys.exit("transcripts: README.md shows something else than is printed")
    print(f"transcripts: {count} commands of README.md printed what it shows")


def main():
    options = argparse.ArgumentParser(description=__doc__, formatter_class=argparse.RawDescriptionHelpFormatter)
    options.add_argument("--tool", default="target/bin/noemathu")
    options.add_argument("--accept", action="store_true")
    options.add_argument("--readme", metavar="FILE.a")
    options.add_argument("names", nargs="*")
    given = options.parse_args()
    binaries = tempfile.mkdtemp()
    environment = dict(os.environ, PATH=f"{binaries}:{os.environ['PATH']}", LC_ALL="C.UTF-8", TERM="xterm")
    environment.pop("NO_COLOR", None)
    os.symlink(Path(given.tool).resolve(), Path(binaries) / "noemathu")
    (Path(binaries) / "bundles").write_text(f"#!/bin/sh\nexec {sys.executable} {HERE}/refused.py \"$@\"\n")
    (Path(binaries) / "bundles").chmod(0o755)
    if given.readme:
        check_readme(given.readme, environment)
        shutil.rmtree(binaries)
        return
    paths = [HERE / "transcripts" / name for name in given.names] or sorted((HERE / "transcripts").iterdir())
    version = subprocess.run([given.tool, "--version"], stdout=subprocess.PIPE, check=True).stdout.decode()
    compared = list if WORDS_OF in version else without_words
    terminal, skipped = has_terminal(), []

    def left_out(command):
        needs = not terminal and any("script -qec" in line for line in command)
        skipped.extend(command if needs else [])
        return needs

    wrong = commands = 0
    for path in paths:
        lines, count = replayed(path.read_text().splitlines(), environment, left_out=left_out)
        commands += count
        if given.accept:
            path.write_text("\n".join(lines) + "\n")
        before = compared(path.read_text().splitlines())
        difference = list(difflib.unified_diff(before, compared(lines), path.name, "now", lineterm=""))
        print("\n".join(difference), end="\n" if difference else "")
        wrong += bool(difference)
    shutil.rmtree(binaries)
    if wrong:
        sys.exit(f"transcripts: {wrong} of {len(paths)} differ")
    if skipped:
        print(f"transcripts: {len(skipped)} commands were left out for lack of a terminal")
    print(f"transcripts: {commands - len(skipped)} commands in {len(paths)} transcripts printed what they should")


if __name__ == "__main__":
    main()
