#!/usr/bin/env python3
"""test.py FILE: run_file.py reads what the recorder wrote to FILE, and the picture of docs/FILE.md; and refuses what they become when they
are cut, made longer or changed. Run by host/c/run.sh."""
import pathlib
import re
import subprocess
import sys
import tempfile

import run_file

HERE = pathlib.Path(__file__).resolve().parent
PICTURE = HERE.parent.parent / "docs/FILE.md"
# the study that host/c/recorder.c saves: pictures of 1,000 bytes and their number
STUDY = [(1, [(n, 1000 + n) for n in (100, 101, 102, 103, 201)]), (4, [(400, 1400), (401, 1401)])]
PRINTED = "run 1, 5607 bytes: 100/1100 101/1101 102/1102 103/1103 201/1201\nrun 4, 2801 bytes: 400/1400 401/1401\n"


def drawn():
    """The bytes of the picture, each line where it says."""
    lines = re.findall(r"^ ?(\d+)  ((?:[0-9a-f]{2} )+) *(\S.*)$", PICTURE.read_text(), re.M)
    data = b""
    for at, line, _ in lines:
        assert int(at) == len(data), f"the picture's line {at} begins at byte {len(data)}"
        data += bytes.fromhex(line)
    return data


def refusal(data):
    try:
        run_file.read(data)
    except run_file.Refused as why:
        return why.number
    return 0


def refuses(data):
    """Every cut, every longer file, and every bit but those of values and payloads is noticed."""
    for length in range(len(data)):
        assert refusal(data[:length]) == 9, f"cut to {length}"
    for more in (b"\0", b"\1", data):
        assert refusal(data + more) == 9
    for at in range(len(data)):
        for bit in range(8):
            other = bytearray(data)
            other[at] ^= 1 << bit
            if at < 4:
                assert refusal(other) == 11
            elif refusal(other) == 0:
                # another value or payload alone
                shape = lambda runs: [[size for _, size in frames] for _, frames in runs]
                assert shape(run_file.read(other)) == shape(run_file.read(data)), f"byte {at}"


def runs_as_program(path):
    said = subprocess.run([sys.executable, HERE / "run_file.py", path], capture_output=True, text=True, check=True)
    assert said.stdout == f"{path}: 148 bytes, 2 runs, 7 frames\n{PRINTED}", said.stdout
    with tempfile.NamedTemporaryFile() as cut:
        cut.write(pathlib.Path(path).read_bytes()[:-1])
        cut.flush()
        said = subprocess.run([sys.executable, HERE / "run_file.py", cut.name, path], capture_output=True, text=True)
    assert said.returncode == 1 and "refused: run 2: its body ends at byte 148, the file at 147" in said.stderr, said.stderr
    assert PRINTED in said.stdout


def main(path):
    data = pathlib.Path(path).read_bytes()
    assert run_file.read(data) == STUDY, "not the recorder's study"
    picture = drawn()
    assert run_file.read(picture) == [(100, [(10, 0), (12, 0), (11, 0)])], "not the whole case"
    for each in (data, picture):
        refuses(each)
    runs_as_program(path)
    print(f"host/python: reads the recorder's {len(data)} bytes and the picture's {len(picture)}, and refuses every cut of them")


if __name__ == "__main__":
    main(sys.argv[1])
