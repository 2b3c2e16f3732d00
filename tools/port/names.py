#!/usr/bin/env python3
"""Respells the repository's own definitions and lemmas: each row of names.tsv beside this file is an old name, a tab, a new one.
Run once, at the top, after the kit's port.py. It turns the code of .antt files and the clauses and `ghost use` items of .rt files;
of comments, code spans and the names that the same file's code has. Functions of src/, strings and outputs stay."""
import pathlib
import subprocess
import sys

KIT = pathlib.Path("/opt/rattle/port/notes/2026-11-18-names-are-in-snake-case/snake.py")
HERE = pathlib.Path(__file__).resolve().parent
sys.exit(subprocess.run([sys.executable, KIT, "--table", HERE / "names.tsv", "--only", "antt,rt", "crates"]).returncode)
