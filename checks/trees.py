"""Texts of logs and snapshots, folders that hold a tree, and runs of the program, for the checks beside this file."""

import os
import subprocess

TOP = os.path.dirname(os.path.dirname(os.path.abspath(__file__)))
MACHINES = f"{TOP}/examples/three_machines"
LABEL = b".sync-label"


class Wrong(Exception):
    """What is not as it has to be."""


def expect(holds, what):
    """Refuses where something does not hold."""
    if not holds:
        raise Wrong(what)


# ---- texts


def escaped(data):
    """Returns bytes as the texts have them."""
    return "".join(f"%{b:02X}" if b <= 0x20 or b == 0x25 or b >= 0x7F else chr(b) for b in data)


def unescaped(text):
    """Returns the bytes of an escaped text."""
    first, *rest = text.split("%")
    return first.encode() + b"".join(bytes([int(part[:2], 16)]) + part[2:].encode() for part in rest)


def path_text(names):
    """Returns the text of a path of names."""
    return "/".join(escaped(name) for name in names)


def log_of(commands, version=1):
    """Returns the text of a log of commands, each a path of names, an old and a new value."""
    lines = [f"{path_text(names)} {old} {new}\n" for names, old, new in commands]
    return f"treelog {version}\n{''.join(lines)}end {len(lines)}\n"


def snapshot_of(rows):
    """Returns the text of a snapshot of these values, in path order."""
    lines = [f"{path_text(path)} {rows[path]}\n" for path in sorted(rows)]
    return f"treesnap 2\n{''.join(lines)}end {len(lines)}\n"


def rows_of(snapshot):
    """Returns the values of a snapshot's nodes by their paths."""
    rows = {}
    for line in snapshot.splitlines()[1:-1]:
        path, value = line.split(" ")
        rows[tuple(unescaped(name) for name in path.split("/"))] = value
    return rows


# ---- folders


def place(folder, names):
    """Returns the bytes of a path in a folder."""
    return os.path.join(os.fsencode(folder), *names)


def write(path, data):
    """Writes a file."""
    with open(path, "wb") as file:
        file.write(data)


def make(folder, rows):
    """Makes a folder that holds these values."""
    os.mkdir(folder)
    for names, value in sorted(rows.items()):
        path = place(folder, names)
        if value.startswith("f:"):
            write(path, unescaped(value[2:]))
        else:
            os.mkdir(path)
            if value != "d":
                write(os.path.join(path, LABEL), unescaped(value[2:]))


def read(folder):
    """Returns the values that a folder holds; names of the program's own that are no labels are held too."""
    rows = {}

    def walk(names):
        for entry in os.scandir(place(folder, names)):
            if entry.name == LABEL:
                continue
            below = names + (entry.name,)
            if entry.is_dir(follow_symlinks=False):
                label = b""
                if os.path.exists(os.path.join(entry.path, LABEL)):
                    with open(os.path.join(entry.path, LABEL), "rb") as file:
                        label = file.read()
                rows[below] = f"d:{escaped(label)}" if label else "d"
                walk(below)
            elif entry.is_file(follow_symlinks=False):
                with open(entry.path, "rb") as file:
                    rows[below] = f"f:{escaped(file.read())}"
            else:
                rows[below] = "other"

    walk(())
    return rows


def shown(folder):
    """Returns what a folder holds but for what a stopped call left under the program's own names."""
    return {path: value for path, value in read(folder).items() if not path[0].startswith(b".sync-")}


# ---- runs


class Bench:
    """The program, and a folder for the folders of the runs."""

    def __init__(self, program, scratch):
        self.program = program
        self.scratch = scratch
        self.count = 0

    def fresh(self, rows=None):
        """Returns the name of a new folder that holds these values, or of none."""
        self.count += 1
        folder = f"{self.scratch}/t{self.count}"
        if rows is not None:
            make(folder, rows)
        return folder

    def text(self, content):
        """Returns the name of a new file with this text."""
        self.count += 1
        name = f"{self.scratch}/m{self.count}"
        write(name, content.encode())
        return name

    def run(self, *words, **options):
        """Returns the status and what was written."""
        ran = subprocess.run(
            [self.program, *words],
            stdin=subprocess.DEVNULL,
            stdout=subprocess.PIPE,
            stderr=subprocess.PIPE,
            timeout=60,
            check=False,
            **options,
        )
        return ran.returncode, (ran.stdout + ran.stderr).decode("utf-8", "replace")

    def printed(self, *words):
        """Returns what a run prints that has to end well."""
        status, text = self.run(*words)
        expect(status == 0, f"{words}: status {status}: {text}")
        return text

    def applies(self, folder, file, status, text, **options):
        """Applies a set, and compares the status and what was written; `D` stands for the folder's name."""
        got = self.run("apply", folder, file, **options)
        expect(got == (status, text.replace("D", folder, 1) if status else text), f"apply: {got} where {status}, {text!r} was wanted")

    def holds(self, folder, rows):
        """Compares what a folder holds."""
        got = read(folder)
        for names in sorted(set(got) | set(rows)):
            expect(got.get(names) == rows.get(names), f"{folder}: {path_text(names)}: {got.get(names)} where {rows.get(names)} was wanted")


def machine_files():
    """The logs of three machines."""
    return [f"{MACHINES}/{name}.log" for name in ("laptop", "desktop", "server")]
