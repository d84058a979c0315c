#!/usr/bin/env python3
"""Writes an article so many times, one after another, each time with its constants and types under new names: renamed.py ARTICLE COUNT >LONG.

A name with a namespace is taken for that of a constant or a type; the others are those of variables and of what is primitive.
"""
import re
import sys

name, count = sys.argv[1], int(sys.argv[2])
lines = open(name).read().splitlines(keepends=True)
body = lines[2:] if [line.strip() for line in lines[1:2]] == ["version"] else lines
sys.stdout.writelines(lines[: len(lines) - len(body)])
for turn in range(count):
    for line in body:
        sys.stdout.write(re.sub(r'^"(.*)\.', rf'"\g<1>{turn}.', line) if line.startswith('"') else line)
