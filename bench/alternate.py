#!/usr/bin/env python3
"""Runs two commands in turn, so that both meet the same load.

    alternate.py ROUNDS LEFT.. -- RIGHT..

Prints the least processor seconds and the greatest resident kilobytes of the left command, and then
of the right one.
"""

import os
import sys


def run(words):
    """Processor seconds and resident kilobytes of one run, whose output is dropped."""
    null = os.open(os.devnull, os.O_RDWR)
    child = os.posix_spawnp(
        words[0],
        words,
        os.environ,
        file_actions=[(os.POSIX_SPAWN_DUP2, null, 1), (os.POSIX_SPAWN_DUP2, null, 2)],
    )
    os.close(null)
    _, status, usage = os.wait4(child, 0)
    status = os.waitstatus_to_exitcode(status)
    # `conflicts` ends with 1 where there are some
    if status not in (0, 1):
        sys.exit(f"alternate.py: {words} ended with status {status}")
    return usage.ru_utime + usage.ru_stime, usage.ru_maxrss


def main():
    rounds = int(sys.argv[1])
    words = sys.argv[2:]
    middle = words.index("--")
    sides = [words[:middle], words[middle + 1 :]]
    seconds = [float("inf")] * 2
    peaks = [0] * 2
    for _ in range(rounds):
        for side, command in enumerate(sides):
            taken, peak = run(command)
            seconds[side] = min(seconds[side], taken)
            peaks[side] = max(peaks[side], peak)
    print(f"{seconds[0]:.3f} {peaks[0]} {seconds[1]:.3f} {peaks[1]}")


if __name__ == "__main__":
    main()
