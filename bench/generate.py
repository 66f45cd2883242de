#!/usr/bin/env python3
"""Makes a snapshot, and logs that its tree takes, in named shapes and sizes.

    generate.py SHAPE LINES FOLDER [LOGS]

writes FOLDER/SHAPE-LINES.snap, the snapshot of a tree, and FOLDER/SHAPE-LINES.log, a log of LINES
commands that it takes; with LOGS in place of the one log FOLDER/SHAPE-LINES-K.log for each K from 1
to LOGS, each a log of LINES commands that begins at the tree. The same words make the same bytes.

    wide   one folder with all files, each changed once
    tree   folders of 20 nodes, 3 to 6 deep, names of 8 to 20 bytes; 3 commands in 10 change a node again
    deep   files below chains of folders: paths of 60 names
"""

import random
import sys

WORDS = (
    "the tree of files is kept by each replica and a log has what it did so that two of them can "
    "meet again when they are back home café naïve 100% x=1; if (a < b) { return }"
).split(" ")


def escaped(text):
    """The escaped text of a text's bytes."""
    return "".join(
        "%%%02X" % byte if byte <= 0x20 or byte == 0x25 or byte >= 0x7F else chr(byte)
        for byte in text.encode()
    )


def some_text(chance):
    """The text of a file whose contents are a few words."""
    return "f:" + escaped(" ".join(chance.choices(WORDS, k=chance.randrange(1, 9))) + "\n")


class Shape:
    """A tree, and the places of files that logs name."""

    def __init__(self, chance, lines):
        self.chance = chance
        self.lines = lines
        self.tree = {}
        self.files = []
        self.again = 0.0

    def folder(self, names, there):
        """A folder, which is there from the start or is made by a log."""
        if there:
            for depth in range(1, len(names) + 1):
                self.tree[names[:depth]] = "d"
        return names

    def file(self, names):
        """A file's place. Two in five files are there from the start, if their folder is."""
        self.files.append(names)
        if self.tree.get(names[:-1]) == "d" and self.chance.random() < 0.4:
            self.tree[names] = some_text(self.chance)


def wide(shape):
    folder = shape.folder(("wide",), True)
    for number in shape.chance.sample(range(10 * shape.lines), shape.lines):
        shape.file(folder + (f"file{number}",))


def tree(shape):
    shape.again = 0.3
    chance = shape.chance
    taken = set()

    def name():
        while True:
            letters = chance.choices("abcdefghijklmnopqrstuvwxyz", k=chance.randrange(8, 21))
            name = "".join(letters)
            if name not in taken:
                taken.add(name)
                return name

    folders = [()]
    while len(shape.files) < shape.lines:
        above = chance.choice(folders) if len(folders) > 1 else ()
        is_there = not above or above in shape.tree
        folder = shape.folder(above + (name(),), is_there and chance.random() < 0.8)
        if len(folder) < 5:
            folders.append(folder)
        if len(folder) >= 2:
            for _ in range(20):
                shape.file(folder + (name(),))


def deep(shape):
    chance = shape.chance
    for number in range(max(1, shape.lines // 4096)):
        names = (f"chain{number}",) + tuple(chance.choices("abcdefghij", k=58))
        folder = shape.folder(names, chance.random() < 0.5)
        for at in range(4096):
            shape.file(folder + (f"f{at}",))


class Log:
    """A log that grows command by command, and what the tree holds after it."""

    def __init__(self, shape):
        self.first = shape.tree
        self.lines = shape.lines
        self.now = {}
        self.commands = []

    def is_full(self):
        return len(self.commands) >= self.lines

    def value(self, names):
        return self.now.get(names) or self.first.get(names, "-")

    def change(self, names, value):
        old = self.value(names)
        if old != value and not self.is_full():
            self.now[names] = value
            self.commands.append((names, old, value))

    def change_file(self, chance, names):
        """Changes, makes or deletes a file; makes the folders above it first."""
        for depth in range(1, len(names)):
            self.change(names[:depth], "d")
        is_gone = self.value(names) != "-" and chance.random() < 0.2
        value = "-" if is_gone else some_text(chance)
        if self.value(names[:-1]) == "d":
            self.change(names, value)


def log_of(shape, chance):
    log = Log(shape)
    files = shape.files[:]
    chance.shuffle(files)
    named = []
    while not log.is_full():
        if named and (not files or chance.random() < shape.again):
            names = chance.choice(named)
        else:
            names = files.pop()
            named.append(names)
        log.change_file(chance, names)
    return log.commands


def text_of(names):
    return "/".join(escaped(name) for name in names)


def write(path, first, lines):
    with open(path, "w", encoding="ascii", newline="\n") as file:
        file.write(first + "\n")
        file.writelines(line + "\n" for line in lines)
        file.write(f"end {len(lines)}\n")


SHAPES = {"wide": wide, "tree": tree, "deep": deep}


def main():
    if len(sys.argv) not in (4, 5) or sys.argv[1] not in SHAPES:
        sys.exit(__doc__.strip())
    name, lines, folder = sys.argv[1], int(sys.argv[2]), sys.argv[3]
    shape = Shape(random.Random(f"{name} {lines}"), lines)
    SHAPES[name](shape)
    path = f"{folder}/{name}-{lines}"
    rows = sorted(shape.tree, key=lambda names: [name.encode() for name in names])
    write(f"{path}.snap", "treesnap 1", [f"{text_of(names)} {shape.tree[names]}" for names in rows])
    logs = range(1, int(sys.argv[4]) + 1) if len(sys.argv) == 5 else [None]
    for number in logs:
        commands = log_of(shape, random.Random(f"{name} {lines} {number}"))
        ending = ".log" if number is None else f"-{number}.log"
        write(path + ending, "treelog 1", [f"{text_of(names)} {old} {new}" for names, old, new in commands])


if __name__ == "__main__":
    main()
