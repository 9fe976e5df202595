#!/usr/bin/env python3
"""Renames the one name by which port.py would take this repository for one in the newer spelling, and leave out most of its steps. Run once, before port.py."""

import pathlib
import re

path = pathlib.Path("crates/unique/specs/Unique.antt")
text = path.read_text()
path.write_text(re.sub(r"\btree_over\b", "tree_reads", text))
