#!/usr/bin/env python3
"""Writes what the programs crates/questions and crates/parts are asked, and what they must answer: the files stdin and stdout of each.

    make -C tools/openvdb                  # as its README.md says: the clouds, and what OpenVDB says of them
    python3 tools/questions/make.py

Of the stored clouds three readers tell: OpenVDB, document.py, and the Rust by what is kept in compare/rust/answers. It ends with
an error where one of them says otherwise and no row of docs/DIFFERENCES.md says so.
"""
import os

import archive
import grid
import inactive
import openvdb
import origins
import parts
import raw
import transforms
import walks
from calls import Questions

CRATES = os.path.join(os.path.dirname(os.path.abspath(__file__)), '..', '..', 'crates')

q = Questions()
archive.ask(q)
grid.ask(q)
raw.ask(q)
inactive.ask(q)
openvdb.ask(q)
transforms.ask(q)
walks.ask(q)
origins.ask(q)
q.write(os.path.join(CRATES, 'questions'))

q = Questions()
parts.ask(q)
q.write(os.path.join(CRATES, 'parts'))
