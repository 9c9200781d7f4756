#!/usr/bin/env python3
"""run_file.py FILE..: prints the runs of run files, or why they are none. Written by docs/FILE.md alone.

A line for each file and one for each run: its value, its total, and payload/size of each frame. Exit status 1 where a file was
refused, whose reason goes to the standard error. As a module: `read(bytes)` gives the runs, or raises Refused.
"""
import struct
import sys

VERSION = 1
PREFACE = struct.Struct("<II")  # version, run count
ENTRY = struct.Struct("<II")  # offset, length
BODY = struct.Struct("<QQI")  # value, total, frame count
FRAME = struct.Struct("<QI")  # payload, size


class Refused(Exception):
    """Why the bytes are no run file; `number` is the refusal that doorsedge_read_file gives."""

    def __init__(self, why, number=9):
        super().__init__(why)
        self.number = number


def read(data):
    """The runs in order, each (value, [(payload, size), ..])."""
    if len(data) < PREFACE.size:
        raise Refused(f"{len(data)} bytes, fewer than {PREFACE.size}")
    version, count = PREFACE.unpack_from(data)
    if version != VERSION:
        raise Refused(f"version {version}, not {VERSION}", 11)
    at = PREFACE.size + count * ENTRY.size
    if at > len(data):
        raise Refused(f"the contents of {count} runs end at byte {at}, the file at {len(data)}")
    runs = []
    for run in range(count):
        offset, length = ENTRY.unpack_from(data, PREFACE.size + run * ENTRY.size)
        if offset != at:
            raise Refused(f"run {run + 1}: its offset is {offset}, its body begins at byte {at}")
        value, frames = read_body(data, at, length, f"run {run + 1}")
        runs.append((value, frames))
        at += length
    if at != len(data):
        raise Refused(f"the last body ends at byte {at}, the file at {len(data)}")
    return runs


def read_body(data, at, length, which):
    if at + BODY.size > len(data):
        raise Refused(f"{which}: the file ends at byte {len(data)}, before the body's frames")
    value, total, count = BODY.unpack_from(data, at)
    if count == 0:
        raise Refused(f"{which}: no frame")
    if length != BODY.size + count * FRAME.size:
        raise Refused(f"{which}: its length is {length}, {count} frames make {BODY.size + count * FRAME.size}")
    if at + length > len(data):
        raise Refused(f"{which}: its body ends at byte {at + length}, the file at {len(data)}")
    frames = list(FRAME.iter_unpack(data[at + BODY.size : at + length]))
    summed = sum(size for _, size in frames)
    if total != summed:
        raise Refused(f"{which}: its total is {total}, its sizes make {summed}")
    return value, frames


def main(paths):
    refused = False
    for path in paths:
        try:
            with open(path, "rb") as file:
                data = file.read()
            runs = read(data)
        except (OSError, Refused) as why:
            print(f"{path}: refused: {why}", file=sys.stderr)
            refused = True
            continue
        print(f"{path}: {len(data)} bytes, {len(runs)} runs, {sum(len(frames) for _, frames in runs)} frames")
        for value, frames in runs:
            shown = " ".join(f"{payload}/{size}" for payload, size in frames)
            print(f"run {value}, {sum(size for _, size in frames)} bytes: {shown}")
    return 1 if refused else 0


if __name__ == "__main__":
    if len(sys.argv) < 2:
        sys.exit(__doc__)
    sys.exit(main(sys.argv[1:]))
