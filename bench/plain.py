#!/usr/bin/env python3
"""Writes record files for bench/stored as plainly as may be.

Usage: bench/plain.py loop FILE LINES     writes and syncs a record after the other, as a run does
       bench/plain.py records FILE LINES  writes all at once
"""
import os
import sys


def records_of(path):
    """The record of each line of a file: its length, an epoch of 0, and the line."""
    with open(path, "rb") as file:
        for line in file:
            line = line[:-1]
            yield (32768 + len(line)).to_bytes(2, "big") + bytes(4) + line


def write_one_by_one(path, lines):
    """Writes each record with a closed gate after it, and then opens its own gate."""
    file = os.open(path, os.O_RDWR | os.O_CREAT)
    os.pwrite(file, b"RECLINE2\0", 0)
    os.fdatasync(file)
    at = 8
    for record in records_of(lines):
        os.pwrite(file, record + b"\0", at + 1)
        os.fdatasync(file)
        os.pwrite(file, b"\1", at)
        os.fdatasync(file)
        at += 1 + len(record)


def write_at_once(path, lines):
    """Writes the file of all records."""
    with open(path, "wb") as file:
        file.write(b"RECLINE2")
        for record in records_of(lines):
            file.write(b"\1" + record)
        file.write(b"\0")


def main(kind, path, lines):
    """Writes the file of this kind."""
    {"loop": write_one_by_one, "records": write_at_once}[kind](path, lines)


if __name__ == "__main__":
    main(*sys.argv[1:])
