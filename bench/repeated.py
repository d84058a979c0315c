#!/usr/bin/env python3
"""Writes a module with the declarations of another so many times, under new names: repeated.py MODULE COUNT >BIG.

The signature, and the definitions and theorems before the first constant of the module, stand once.
"""
import re
import sys

name, count = sys.argv[1], int(sys.argv[2])
lines = [line for line in open(name) if line.strip()]
first = next(i for i, line in enumerate(lines) if re.match(r"(def )?c_", line))
while first and lines[first - 1].startswith("(;"):
    first -= 1
sys.stdout.writelines(lines[:first])
declared = {m[1] for m in (re.match(r"(?:def |thm )?(\w+) :", line) for line in lines[first:]) if m}
parts = re.split(r"(\w+)", "".join(lines[first:]))
places = [i for i, part in enumerate(parts) if part in declared]
for turn in range(count):
    made = list(parts)
    for i in places:
        made[i] += f"_{turn}"
    sys.stdout.write("".join(made))
