#!/usr/bin/env python3
"""place.py FOLDER: copies the repository's crates to FOLDER and places the measuring programs among them.

The sources of the programs end in .txt here, so that the gate of the repository doesn't look for crates in this folder.
"""
import os
import shutil
import sys

HERE = os.path.dirname(os.path.abspath(__file__))
ROOT = os.path.dirname(os.path.dirname(HERE))
LINES = {
    "walks": "num_ends ground_task box_model relax_plain simple_atoms subgoal sqlite_items",
    "planner_parts": "num_ends pddl_terms pddl_types pair_text ground_task ground_meaning grounder walks",
    "dead_boxes": "num_ends ground_task places box_model relax_plain box_words word_rows dead_rows atomic_table sqlite_items",
}


def copy_new(source, target):
    """Copies a file unless the same is there: what was proved stays proved."""
    with open(source, "rb") as file:
        text = file.read()
    if os.path.isfile(target):
        with open(target, "rb") as file:
            if file.read() == text:
                return
    os.makedirs(os.path.dirname(target), exist_ok=True)
    with open(target, "wb") as file:
        file.write(text)


def copy_below(source, target, ending=""):
    for folder, folders, files in os.walk(source):
        folders[:] = [name for name in folders if name != "out"]
        for name in files:
            inside = os.path.relpath(os.path.join(folder, name), source)
            copy_new(os.path.join(folder, name), os.path.join(target, inside.removesuffix(ending)))


def main():
    target = os.path.abspath(sys.argv[1])
    copy_below(f"{ROOT}/crates", f"{target}/crates")
    for name in LINES:
        copy_below(f"{HERE}/programs/{name}", f"{target}/crates/{name}", ".txt")
    with open(f"{ROOT}/crates.txt", encoding="utf-8") as file:
        lines = file.read()
    for name, libraries in LINES.items():
        lines += f"{name}: {libraries}\n"
    with open(f"{target}/crates.txt", "w", encoding="utf-8") as file:
        file.write(lines)
    shutil.copy(f"{ROOT}/HANDLES", f"{target}/HANDLES")


main()
