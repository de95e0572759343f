#!/usr/bin/env python3
"""merge_crates.py: settles a conflict in crates.txt: the layout of this side, with the crates and the dependencies that the
other side has added, and without those that it has taken out."""
import subprocess


def side(number):
    show = subprocess.run(["git", "show", f":{number}:crates.txt"], capture_output=True, text=True, check=True).stdout
    return show.rstrip("\n").split("\n")


def crates(lines):
    return {line.split(":")[0]: line.split(":")[1].split() for line in lines if ":" in line and line[:1] not in "# "}


base, ours, theirs = side(1), side(2), side(3)
was, here, there = crates(base), crates(ours), crates(theirs)
order = list(there)
out = []
for line in ours:
    name = line.split(":")[0]
    if name not in here or line.startswith("#"):
        out.append(line)
        continue
    if name in was and name not in there:
        continue
    if name in there:
        added = [it for it in there[name] if it not in was.get(name, []) and it not in here[name]]
        gone = [it for it in was.get(name, []) if it not in there[name]]
        here[name] = [it for it in here[name] if it not in gone] + added
    out.append(f"{name}: {' '.join(here[name])}".rstrip())
for at, name in enumerate(order):
    if name in was or name in here:
        continue
    # below the first crate that stands on it, or else behind the one before it
    users = [k for k, line in enumerate(out) if f" {name}" in f"{line} ".replace(f" {name} ", f" {name}") and name in line.split()[1:]]
    before = [k for k, line in enumerate(out) if at and line.startswith(order[at - 1] + ":")]
    place = users[0] if users else before[0] + 1 if before else len(out)
    out.insert(place, f"{name}: {' '.join(there[name])}".rstrip())
with open("crates.txt", "w", encoding="utf8") as it:
    it.write("\n".join(out) + "\n")
