#!/usr/bin/env python3
"""Runs the examples of README.md and compares what they print.

  bench/examples.py [FILE ..]

An example is a block between a line ```console and a line ```. In it a line that begins with `$ ` is a command, and the lines up to the next
one are exactly what the command prints, on standard output and standard error together. The blocks of a file run in their order in one
folder, in which the files of this repository stand as at its top, and each block in one shell. So an example
shows a file that was written by a command that prints it. Other blocks, as those of formats, are not run.

By default it takes README.md, and there each mode that the program's usage line names has to have an example, but one that the program does
not know yet: it answers such words with the usage line itself, and status 2. A block is left out where a tool that it names is missing.

The program is the one that `rt run` or `rt ci` left in crates/andexor/out, or that the variable ANDEXOR names. The status is 0 where all
agree, 1 where something differs or a mode has no example, and 2 where the program or a tool is missing.
"""
import os
import re
import shutil
import subprocess
import sys
import tempfile
from typing import List, NamedTuple

import program

# stands after what each command prints
MARK = "\x1e"
TOOLS = ("berkeley-abc", "iverilog", "python3", "vvp", "yosys")


class Example(NamedTuple):
    line: int
    commands: List[str]
    prints: List[str]


def examples(path):
    with open(path, encoding="utf-8") as file:
        lines = file.read().splitlines()
    found, inside = [], False
    for number, line in enumerate(lines, 1):
        if not inside and line == "```console":
            inside = True
            found.append(Example(number, [], []))
        elif inside and line == "```":
            inside = False
        elif inside and line.startswith("$ "):
            found[-1].commands.append(line[2:])
            found[-1].prints.append("")
        elif inside:
            found[-1].prints[-1] += line + "\n"
    return found


def run(folder, commands):
    """What each command prints, all in one shell, so that the status of one stands for the next."""
    marked = "".join(f"{command}\nleft=$?; printf '\\036'; (exit $left)\n" for command in commands)
    done = subprocess.run(
        ["bash", "-c", marked],
        cwd=folder,
        stdout=subprocess.PIPE,
        stderr=subprocess.STDOUT,
        env={**os.environ, "ANDEXOR": program.PROGRAM},
        check=False,
    )
    return done.stdout.decode("utf-8", "replace").split(MARK)[:-1]


def agrees(folder, name, example):
    printed = run(folder, example.commands)
    good = len(printed) == len(example.commands)
    for command, shown, got in zip(example.commands, example.prints, printed):
        if shown != got:
            print(f"{name}: line {example.line}: $ {command}\nprints\n{got}and not\n{shown}", end="")
            good = False
    return good


def missing_tools(example):
    words = set(re.findall(r"[\w-]+", " ".join(example.commands)))
    return [tool for tool in TOOLS if tool in words and shutil.which(tool) is None]


def set_up(folder):
    """The repository's files as at its top, among them the command `andexor`, which runs the program that the variable ANDEXOR names."""
    for name in os.listdir(program.HERE):
        os.symlink(os.path.join(program.HERE, name), os.path.join(folder, name))


def modes_without(found):
    """The modes of the usage line that no example has and that the program knows."""
    commands = [command.split() for example in found for command in example.commands]
    with tempfile.TemporaryDirectory() as folder:
        usage = program.run(folder, []).report
        for mode in usage.removeprefix("usage: andexor ").strip().split(", "):
            words = ["1" if word == "NUMBER" else word.lower() for word in mode.split()]
            if any("./andexor" in command and words[0] in command for command in commands):
                continue
            if program.run(folder, words).report == usage:
                print(f"the program does not know {words[0]} yet")
            else:
                yield words[0]


def main(paths):
    if program.is_missing():
        return 2
    good, left_out = True, 0
    for path in paths or [os.path.join(program.HERE, "README.md")]:
        name, found, ran = os.path.basename(path), examples(path), 0
        with tempfile.TemporaryDirectory() as folder:
            set_up(folder)
            for example in found:
                tools = missing_tools(example)
                if tools:
                    print(f"{name}: line {example.line}: left out, since {', '.join(tools)} is missing")
                    left_out += 1
                    continue
                good = agrees(folder, name, example) and good
                ran += len(example.commands)
        print(f"{name}: {ran} commands of {len(found)} examples: {'all print what is shown' if good else 'NOT ALL PRINT WHAT IS SHOWN'}")
        if not paths:
            for mode in modes_without(found):
                print(f"{name}: no example of {mode}")
                good = False
    return 1 if not good else 2 if left_out else 0


if __name__ == "__main__":
    sys.exit(main(sys.argv[1:]))
