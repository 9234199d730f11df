#!/usr/bin/env python3
"""Writes the stored answers anew, from the Rust: tests/oracle/reading.txt, and the files that crates/field_replay and crates/port_replay are run on and
held to. It needs the Rust's sources and a Rust compiler; see tests/rust. tests/parts/28-stored-answers makes them again and compares."""

import sys
from pathlib import Path

sys.dont_write_bytecode = True
TESTS = Path(__file__).resolve().parents[1]
sys.path[:0] = [str(TESTS), str(TESTS / "rust"), str(TESTS / "oracle")]

import fields
import ports
import reading

for maker in (reading, fields, ports):
    for path, content in maker.made().items():
        path.write_bytes(content)
        print(path.relative_to(TESTS.parent), len(content), "bytes")
