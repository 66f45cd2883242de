"""A plain program of the definitions in docs/MODEL.md and docs/FORMATS.md, slow and small, to compare the program with.

It knows the texts of logs, snapshots, preferences and scripts with their faults, the answers of `replay`, `canon`,
`merge`, `conflicts`, `transition`, `steer`, `explain`, `undo`, `catchup` and `rebase`, and what `record` does to a tree.
An answer is the status, the output and the line of a refusal.
"""

import re

MOST = 1 << 20
WIDE = 256


class Fault(Exception):
    """A refusal: its status, and its line without the program's name."""

    def __init__(self, status, line):
        super().__init__(line)
        self.status, self.line = status, line


# ---- texts: a path is a tuple of names, a value is (kind, bytes) with the kinds "-", "d" and "f"

EMPTY = ("-", b"")
DIRECTORY = ("d", b"")
WELL_ESCAPED = re.compile(rb"(?:[!-$&-~]|%(?:[01][0-9A-F]|20|25|7F|[89A-F][0-9A-F]))*")


def escaped(data):
    return b"".join(b"%%%02X" % b if b <= 0x20 or b == 0x25 or b >= 0x7F else bytes([b]) for b in data)


def unescaped(text):
    """The bytes whose escaped text it is, or None."""
    if not WELL_ESCAPED.fullmatch(text):
        return None
    return re.sub(rb"%(..)", lambda m: bytes([int(m[1], 16)]), text)


def is_name(name):
    if not 1 <= len(name) <= 255 or b"/" in name or b"\0" in name or name in (b".", b".."):
        return False
    try:
        name.decode("utf-8")
    except UnicodeDecodeError:
        return False
    return not name.startswith(b".sync-")


def read_path(text):
    names = [unescaped(part) for part in text.split(b"/")]
    if None in names or len(names) > 64 or not all(map(is_name, names)):
        return None
    return tuple(names)


def path_text(path):
    return b"/".join(map(escaped, path))


def read_value(text, version):
    if text == b"-":
        return EMPTY
    if text == b"d":
        return DIRECTORY
    if text.startswith(b"f:"):
        data = unescaped(text[2:])
        return None if data is None or len(data) > 1 << 24 else ("f", data)
    if version == 2 and text.startswith(b"d:") and len(text) > 2:
        data = unescaped(text[2:])
        return None if data is None or len(data) > 255 else ("d", data)
    return None


def value_text(value):
    kind, data = value
    return kind.encode() + (b":" + escaped(data) if data or kind == "f" else b"")


def log_line(line, version, before):
    fields = line.split(b" ")
    if len(fields) != 3:
        raise ValueError("fields")
    if len(before) >= MOST:
        raise ValueError("too-many")
    path, old, new = read_path(fields[0]), read_value(fields[1], version), read_value(fields[2], version)
    if path is None:
        raise ValueError("path")
    if old is None or new is None:
        raise ValueError("value")
    if old == new:
        raise ValueError("same")
    return path, old, new


def snapshot_line(line, version, before):
    fields = line.split(b" ")
    if len(fields) != 2:
        raise ValueError("fields")
    if len(before) >= MOST:
        raise ValueError("too-many")
    path, value = read_path(fields[0]), read_value(fields[1], version)
    if path is None:
        raise ValueError("path")
    if value is None:
        raise ValueError("value")
    if value == EMPTY:
        raise ValueError("empty")
    if before and path <= before[-1][0]:
        raise ValueError("order")
    if len(path) > 1 and not any(p == path[:-1] and v[0] == "d" for p, v in before):
        raise ValueError("parent")
    return path, value


def rule_line(line, _version, before):
    fields = line.split(b" ")
    if len(fields) != {b"at": 3, b"under": 3, b"all": 2}.get(fields[0]):
        raise ValueError("fields")
    if len(before) >= MOST:
        raise ValueError("too-many")
    if fields[0] != b"at" and sum(rule[0] != b"at" for rule in before) >= WIDE:
        raise ValueError("too-wide")
    if not re.fullmatch(rb"[1-9][0-9]?", fields[1]) or int(fields[1]) > 64:
        raise ValueError("number")
    path = read_path(fields[2]) if len(fields) == 3 else ()
    if path is None:
        raise ValueError("path")
    return fields[0], int(fields[1]), path


def script_line(line, version, before):
    fields = line.split(b" ")
    short, long = {b"mkdir", b"del", b"deltree"}, {b"put", b"move", b"copy"} | ({b"label"} if version == 2 else set())
    if not (len(fields) == 2 and fields[0] in short or len(fields) == 3 and fields[0] in long):
        raise ValueError("fields")
    if len(before) >= MOST:
        raise ValueError("too-many")
    path = read_path(fields[1])
    if path is None:
        raise ValueError("path")
    if len(fields) == 2:
        return fields[0], path, None
    if fields[0] in (b"move", b"copy"):
        other = read_path(fields[2])
        if other is None:
            raise ValueError("path")
        return fields[0], path, other
    value = read_value(fields[2], version)
    if value is None or value[0] != ("f" if fields[0] == b"put" else "d"):
        raise ValueError("value")
    return fields[0], path, value


FORMS = {
    "log": ({b"treelog 1": 1, b"treelog 2": 2}, log_line),
    "snapshot": ({b"treesnap 1": 1, b"treesnap 2": 2}, snapshot_line),
    "preferences": ({b"treeprefs 1": 1}, rule_line),
    "script": ({b"treescript 1": 1, b"treescript 2": 2}, script_line),
}


def read(form, text, word):
    """The version and the items of a text; refuses it with its first invalid line."""
    heads, judge = FORMS[form]
    *lines, rest = text.split(b"\n")

    def refuse(line, kind):
        raise Fault(5, b"%s: line %d: %s" % (word, line, kind.encode()))

    if not lines or lines[0] not in heads:
        refuse(1, "header")
    version, items = heads[lines[0]], []
    for at, line in enumerate(lines[1:], 2):
        fields = line.split(b" ")
        if len(fields) == 2 and fields[0] == b"end" and fields[1][:1].isdigit():
            if fields[1] != b"%d" % len(items):
                refuse(at, "count")
            if at < len(lines) or rest:
                refuse(at + 1, "after")
            return version, items
        try:
            items.append(judge(line, version, items))
        except ValueError as fault:
            refuse(at, str(fault))
    return refuse(len(lines) + 1, "end")


def text_of(head, version, lines):
    return b"".join(line + b"\n" for line in [b"%s %d" % (head, version), *lines, b"end %d" % len(lines)])


def log_text(version, commands):
    return text_of(b"treelog", version, [b" ".join((path_text(p), value_text(v), value_text(w))) for p, v, w in commands])


# ---- trees, logs and sets


def value_at(tree, path):
    return tree.get(path, EMPTY)


def put(tree, path, value):
    after = {**tree, path: value}
    if value == EMPTY:
        del after[path]
    return after


def is_tree(tree):
    return all(len(p) == 1 or value_at(tree, p[:-1])[0] == "d" for p in tree)


def applied(tree, command):
    """The result of the command, or None where it is not applicable."""
    path, old, new = command
    if value_at(tree, path) != old:
        return None
    after = put(tree, path, new)
    return after if is_tree(after) else None


def replayed(tree, commands):
    """The result, and the number of the first command that is not taken."""
    for number, command in enumerate(commands, 1):
        after = applied(tree, command)
        if after is None:
            return tree, number
        tree = after
    return tree, None


def touches(commands):
    first = {}
    for path, old, _ in commands:
        first.setdefault(path, old)
    return first


def least_tree(logs):
    tree = {}
    for first in map(touches, logs):
        for path in first:
            for depth in range(1, len(path)):
                tree.setdefault(path[:depth], DIRECTORY)
    for first in map(touches, logs):
        tree.update(first)
    return {path: value for path, value in tree.items() if value != EMPTY}


def is_taken(commands):
    tree = least_tree([commands])
    return is_tree(tree) and replayed(tree, commands)[1] is None


def broken_at(commands):
    """The number of the command up to which no tree takes the log, or None."""
    return next((n for n in range(1, len(commands) + 1) if not is_taken(commands[:n])), None)


def is_down(command):
    _, old, new = command
    return new == EMPTY or (old[0] == "d" and new[0] != "d")


def canonical(commands):
    downs = sorted((c for c in commands if is_down(c)), key=lambda c: c[0], reverse=True)
    return downs + sorted((c for c in commands if not is_down(c)), key=lambda c: c[0])


def net(commands):
    first, last = touches(commands), {path: new for path, _, new in commands}
    return canonical([(path, first[path], last[path]) for path in first if first[path] != last[path]])


def fits(tree, commands):
    """The result of a set on a tree, or None where it does not fit."""
    if len({c[0] for c in commands}) != len(commands) or any(value_at(tree, p) != old for p, old, _ in commands):
        return None
    after = tree
    for path, _, new in commands:
        after = put(after, path, new)
    return after if is_tree(after) else None


# ---- scripts


def subtree(tree, path):
    return sorted(p for p in tree if p[: len(path)] == path)


def reasons(tree, operation):
    """The reasons that can refuse an operation, in their order, each with whether it applies."""
    word, path, other = operation
    held = value_at(tree, path)

    def no_parent(place):
        return len(place) > 1 and value_at(tree, place[:-1])[0] != "d", "no-parent"

    missing = held == EMPTY, "missing"
    if word == b"mkdir":
        return [(held != EMPTY, "exists"), no_parent(path)]
    if word == b"put":
        return [(held[0] == "d", "is-dir"), no_parent(path)]
    if word == b"del":
        return [missing, (any(p[:-1] == path for p in tree), "not-empty")]
    if word == b"label":
        return [missing, (held[0] != "d", "not-dir")]
    if word == b"deltree":
        return [missing]
    inside = len(other) > len(path) and other[: len(path)] == path
    deep = any(len(other) + len(p) - len(path) > 64 for p in subtree(tree, path))
    return [missing, (inside, "inside"), (value_at(tree, other) != EMPTY, "exists"), no_parent(other), (deep, "too-deep")]


def commands_of(tree, operation):
    word, path, other = operation
    held = value_at(tree, path)
    if word in (b"mkdir", b"put", b"del", b"label"):
        new = {b"mkdir": DIRECTORY, b"del": EMPTY}.get(word, other)
        return [(path, held, new)] if new != held else []
    gone = [(p, tree[p], EMPTY) for p in reversed(subtree(tree, path))]
    made = [(other + p[len(path) :], EMPTY, tree[p]) for p in subtree(tree, path)] if word != b"deltree" else []
    return made + (gone if word != b"copy" else [])


def record(tree, text, word):
    """The tree after a script, and the answer."""
    try:
        version, operations = read("script", text, word)
    except Fault as fault:
        return tree, (fault.status, b"", b"treesync: " + fault.line + b"\n")
    done = []
    for number, operation in enumerate(operations, 1):
        commands = commands_of(tree, operation)
        labelled = version == 1 and any(value[0] == "d" and value[1] for c in commands for value in c[1:])
        for applies, reason in [*reasons(tree, operation), (labelled, "labelled")]:
            if applies:
                line = b"treesync: %s: line %d: %s\n" % (word, number + 1, reason.encode())
                return tree, (15, log_text(version, done), line)
        for command in commands:
            tree = applied(tree, command)
        done += commands
    return tree, (0, log_text(version, done), b"")


# ---- joining, ranking and merging


def needs(log):
    """What a log needs: a value at each touched node, "d" for any directory above."""
    first = touches(log)
    above = {path[:depth] for path in first for depth in range(1, len(path))}
    return {**{path: "d" for path in above if path not in first}, **first}


def leaves(log, path):
    first = touches(log)
    return path in first and (first[path][0] != "d" or any(p == path and new[0] != "d" for p, _, new in log))


def agree(m, n):
    if m == "d":
        return n == "d" or n[0] == "d"
    return m == n if n != "d" else m[0] == "d"


def disagreement(one, other):
    """The first node in path order at which two logs disagree, or None."""
    left, right = needs(one), needs(other)
    found = [p for p in left if p in right and not agree(left[p], right[p])]
    for mine, log, theirs in ((left, other, right), (right, one, left)):
        for path, value in mine.items():
            if value != EMPTY and path not in touches(log) and len(path) > 1 and leaves(log, path[:-1]):
                found.append(path)
    return min(found, default=None)


def joined(logs):
    """Refuses logs that no tree takes together."""
    for i, one in enumerate(logs):
        for j in range(i + 1, len(logs)):
            path = disagreement(one, logs[j])
            if path is not None:
                raise Fault(7, b"logs %d and %d: no common tree at %s" % (i + 1, j + 1, path_text(path)))
    return least_tree(logs)


def ranking(nets, rules, word):
    order = []
    for number, (kind, log, path) in enumerate(rules, 1):
        if log > len(nets):
            raise Fault(13, b"%s: line %d: no such log" % (word, number + 1))
        part = nets[log - 1]
        if kind == b"at":
            part = [c for c in part if c[0] == path]
            if not part:
                raise Fault(13, b"%s: line %d: no such command" % (word, number + 1))
        elif kind == b"under":
            part = [c for c in part if c[0][: len(path)] == path]
        order += part
    order += [c for commands in nets for c in commands]
    return list(dict.fromkeys(order))


def conflict(c, d):
    """Whether no drawn set that fits has both."""
    if c[0] == d[0]:
        return c != d
    for above, below in ((c, d), (d, c)):
        if len(below[0]) > len(above[0]) and below[0][: len(above[0])] == above[0]:
            return above[2][0] != "d" and below[2] != EMPTY
    return False


def first_merger(order):
    taken = []
    for command in order:
        if not any(conflict(command, other) for other in taken):
            taken.append(command)
    return canonical(taken)


def log_of(command, nets):
    return next(number for number, commands in enumerate(nets, 1) if command in commands)


def differences(nodes, now, wanted):
    """The set that leads from one tree to another, where they differ at these nodes alone."""
    return canonical([(p, value_at(now, p), value_at(wanted, p)) for p in nodes if value_at(now, p) != value_at(wanted, p)])


# ---- why a drawn command is left out of a merger


def is_denied(is_met, tree, merger, via):
    """Whether a demand is passed on along the nodes of a list, and denied at the last."""
    new = {path: value for path, _, value in merger}
    *before, last = via
    passed = all(p not in new and not is_met(value_at(tree, p)) for p in before)
    return passed and last in new and not is_met(new[last])


def is_chain(tree, merger, command, via):
    """Whether the nodes are a chain for a command that the merger has not."""
    node, _, new = command
    if any(path == node for path, _, _ in merger):
        return via == []
    if not via:
        return False
    steps = list(zip([node, *via], via))
    up = new != EMPTY and all(q == p[:-1] for p, q in steps)
    down = new[0] != "d" and all(q[:-1] == p for p, q in steps)
    return (up and is_denied(lambda value: value[0] == "d", tree, merger, via)) or (
        down and is_denied(lambda value: value == EMPTY, tree, merger, via)
    )


def first_chain(tree, merger, command):
    """The empty chain, or the one that leads up, or of those that lead down the one whose last node comes first."""
    node = command[0]
    ups = [[node[:depth] for depth in range(len(node) - 1, end, -1)] for end in range(len(node) - 1)]
    lows = sorted(path for path, _, _ in merger if len(path) > len(node) and path[: len(node)] == node)
    downs = [[low[:depth] for depth in range(len(node) + 1, len(low) + 1)] for low in lows]
    return next(via for via in [[], *ups, *downs] if is_chain(tree, merger, command, via))


# ---- undoing and composing


def inverse(commands):
    return canonical([(path, new, old) for path, old, new in commands])


def composed(nets, words):
    """The composition of sets; refuses those that do not follow one another."""
    chain = [(word, command) for word, commands in zip(words, nets) for command in commands]
    number = broken_at([command for _, command in chain])
    if number is not None:
        word, command = chain[number - 1]
        raise Fault(18, b"%s: does not follow at %s" % (word, path_text(command[0])))
    return net([command for _, command in chain])


# ---- the answers of jobs; `files` has the bytes under each name


def read_log(files, word):
    return read("log", files[word], word)


def read_logs(files, words):
    logs = [read_log(files, word) for word in words]
    return max(version for version, _ in logs), [commands for _, commands in logs]


def taken_or_refused(logs, words):
    for word, commands in zip(words, logs):
        number = broken_at(commands)
        if number is not None:
            raise Fault(6, b"%s: line %d: no tree takes this log" % (word, number + 1))


def canon(files, word):
    version, commands = read_log(files, word)
    taken_or_refused([commands], [word])
    return 0, log_text(version, net(commands))


def replay(files, snap, word):
    version, rows = read("snapshot", files[snap], snap)
    later, commands = read_log(files, word)
    tree, number = replayed(dict(rows), commands)
    if number is not None:
        raise Fault(17, b"%s: line %d: not taken" % (word, number + 1))
    lines = [path_text(path) + b" " + value_text(tree[path]) for path in sorted(tree)]
    return 0, text_of(b"treesnap", max(version, later), lines)


def merging(files, prefs, words):
    """The version, the logs, their net sets, the least common tree and the first merger."""
    rules = read("preferences", files[prefs], prefs)[1] if prefs else []
    version, logs = read_logs(files, words)
    taken_or_refused(logs, words)
    tree, nets = joined(logs), list(map(net, logs))
    return version, nets, tree, first_merger(ranking(nets, rules, prefs))


def merge(files, prefs, *words):
    version, _, _, merger = merging(files, prefs, words)
    return 0, log_text(version, merger)


def transition(files, prefs, number, *words):
    version, nets, tree, merger = merging(files, prefs, words)
    nodes = {c[0] for c in nets[number - 1] + merger}
    return 0, log_text(version, differences(nodes, fits(tree, nets[number - 1]), fits(tree, merger)))


def conflicts(files, *words):
    _, nets, _, _ = merging(files, None, words)
    drawn = {c: log_of(c, nets) for commands in nets for c in commands}
    nodes = sorted({c[0] for c in drawn})
    lines = []
    for node in nodes:
        here = sorted((log, c) for c, log in drawn.items() if c[0] == node)
        lines += [b"same %s %d %d" % (path_text(node), i, j) for i, _ in here for j, _ in here if i < j]
        below = sorted((c[0], log, c) for c, log in drawn.items() if c[0][:-1] == node and c[2] != EMPTY)
        lines += [
            b"below %s %s %d %d" % (path_text(node), path_text(child), left, right)
            for child in sorted({c for c, _, _ in below})
            for left, c in here
            for at, right, _ in below
            if at == child and c[2][0] != "d"
        ]
    return int(bool(lines)), b"".join(line + b"\n" for line in [*lines, b"clashes %d" % len(lines)])


def steer(files, word, *words):
    _, commands = read_log(files, word)
    _, logs = read_logs(files, words)
    taken_or_refused([commands, *logs], [word, *words])
    tree, nets, chosen = joined(logs), list(map(net, logs)), net(commands)
    drawn = list(dict.fromkeys(c for part in nets for c in part))
    for command in chosen:
        if command not in drawn:
            raise Fault(14, b"%s: not drawn at %s" % (word, path_text(command[0])))
    after = tree
    for path, _, new in chosen:
        after = put(after, path, new)
    bad = [p for p in after if len(p) > 1 and value_at(after, p[:-1])[0] != "d"]
    if bad:
        raise Fault(14, b"%s: does not fit at %s" % (word, path_text(min(bad))))
    for command in drawn:
        if command not in chosen and fits(tree, [*chosen, command]) is not None:
            raise Fault(14, b"%s: can add log %d at %s" % (word, log_of(command, nets), path_text(command[0])))
    return 0, text_of(b"treeprefs", 1, [b"at %d %s" % (log_of(c, nets), path_text(c[0])) for c in chosen])


def explain(files, prefs, *words):
    _, nets, tree, merger = merging(files, prefs, words)
    lines = []
    for command in dict.fromkeys(c for commands in nets for c in commands):
        if command not in merger:
            via = [command[0], *first_chain(tree, merger, command)]
            first, *rest = map(path_text, via)
            lines.append(b" ".join([b"%d" % log_of(command, nets), first, b"taken", *rest]))
    return 0, b"".join(line + b"\n" for line in [*lines, b"left %d" % len(lines)])


def undo(files, word):
    version, commands = read_log(files, word)
    taken_or_refused([commands], [word])
    return 0, log_text(version, inverse(net(commands)))


def catchup(files, *words):
    version, logs = read_logs(files, words)
    taken_or_refused(logs, words)
    return 0, log_text(version, composed(list(map(net, logs)), words))


def rebase(files, prefs, side, work, *words):
    rules = read("preferences", files[prefs], prefs)[1] if prefs else []
    version, (recorded, *sets) = read_logs(files, [work, *words])
    taken_or_refused([recorded, *sets], [work, *words])
    logs = [recorded, composed(list(map(net, sets)), words)]
    tree, nets = joined(logs), list(map(net, logs))
    merger = first_merger(ranking(nets, rules, prefs))
    mine = nets[{b"tree": 0, b"next": 1}[side]]
    return 0, log_text(version, differences({c[0] for c in mine + merger}, fits(tree, mine), fits(tree, merger)))


def answer(job, *words):
    """The status, the output and the error line of a job."""
    try:
        status, out = job(*words)
        return status, out, b""
    except Fault as fault:
        return fault.status, b"", b"treesync: %s\n" % fault.line
