#!/usr/bin/env python3
"""compare.py RUNS NAME=PROGRAM.. -- PART COUNT PAIR..: runs the programs in turn, each so often in the folder of each pair.

Prints of each program the least user time, the least of user and system time together, and the largest resident memory,
and says where the outputs differ. The time is that of the whole process: subtract a run with COUNT 0. A small program's
memory is not seen: the figure is at least what this script takes itself, some 14 MB.
"""
import os
import subprocess
import sys


def run(program, words, folder):
    child = subprocess.Popen(
        [program, *words], cwd=folder, stdout=subprocess.PIPE, stderr=subprocess.DEVNULL
    )
    text = child.stdout.read().decode().strip()
    _, status, usage = os.wait4(child.pid, 0)
    child.returncode = status
    return usage.ru_utime, usage.ru_utime + usage.ru_stime, usage.ru_maxrss, text, status


def main():
    cut = sys.argv.index("--")
    runs = int(sys.argv[1])
    programs = [word.split("=", 1) for word in sys.argv[2:cut]]
    part, count, *pairs = sys.argv[cut + 1 :]
    for pair in pairs:
        seen = {name: [] for name, _ in programs}
        for _ in range(runs):
            for name, program in programs:
                seen[name].append(run(os.path.abspath(program), [part, count], pair))
        texts = {one[3] for all in seen.values() for one in all}
        for name, all in seen.items():
            user, both, memory = (f([one[i] for one in all]) for i, f in enumerate((min, min, max)))
            status = max(one[4] for one in all)
            print(
                f"{os.path.basename(pair):10} {part:9} {count:>7} {name:8} user {user * 1000:9.1f} ms,"
                f" all {both * 1000:9.1f} ms, memory {memory:8} KB" + (f" STATUS {status}" if status else "")
            )
        print("           output " + (texts.pop() if len(texts) == 1 else f"DIFFERS: {texts}"))


main()
