#!/usr/bin/env python3
"""Writes the first inputs of the fuzz target from the vector files: corpus.py VECTORS FOLDER.

An input is eight bytes of numbers, a schema file and data, as fuzz.c says."""

import struct
import sys
from pathlib import Path


def run(text):
    return b"" if text == "-" else bytes.fromhex(text)


def whole(text):
    return [] if text == "-" else text.split(",")


def entry(text):
    """Six bytes that say an entry: its kind, start and length of a value."""
    if text in "nk":
        return struct.pack("<BHHB", 0 if text == "n" else 2, 0, 0, 0)
    start, end = (int(number) for number in text.split(":"))
    return struct.pack("<BHHB", 1, start & 0xFFFF, (end - start) & 0xFFFF, 0)


def parts(call, words):
    """The parts of an input for a line of a call's file."""
    if call in ("read_header", "read_options"):
        return {"data": run(words[0])}
    if call == "read_sheet":
        return {"file": run(words[0])}
    if call == "write_sheet":
        return {"data": b"".join(struct.pack("<I", int(number)) for number in whole(words[0]))}
    if call == "check_section":
        return {"file": run(words[0]), "data": run(words[1])}
    if call == "list_section":
        return {"file": run(words[0]), "data": run(words[1]), "space": int(words[2])}
    if call == "feed":
        fragments = [run(part) for part in words[1].split(",") if part != "close"]
        return {"file": run(words[0]), "data": b"".join(fragments), "column": len(fragments)}
    start = {"file": run(words[0]), "number": int(words[1])}
    if call == "find_column":
        owner = 0 if words[4] == "parents" else int(words[4])
        return {**start, "data": run(words[2]), "offset": owner, "column": int(words[5]), "space": int(words[6])}
    if call == "find_page":
        # The offset is both the first row and the owner, so the vector's owner comes only where it starts at the first row.
        owner = 0 if words[6] == "parents" else int(words[6])
        offset = int(words[5]) or owner
        return {**start, "data": run(words[2]), "offset": offset, "column": int(words[7]), "space": int(words[8])}
    if call == "look_up":
        return {**start, "data": run(words[2]), "column": int(words[3])}
    if call == "field_count":
        return {**start, "data": run(words[2])}
    if call == "current":
        row = run(words[2])
        return {**start, "data": row + run(words[3]), "offset": len(row), "column": int(words[4])}
    if call == "make_plan":
        return start
    if call == "fixed_place":
        return {**start, "column": int(words[2])}
    if call in ("write_original", "write_update"):
        entries = b"".join(entry(text) for text in whole(words[2]))
        return {**start, "data": entries + run(words[3]), "space": int(words[4]), "offset": int(words[5])}
    raise SystemExit(f"no call is known for {call}")


def packed(number=0, column=0, offset=0, space=64, file=b"", data=b""):
    sizes = (min(number, 0x7F), min(column, 0xFF), offset & 0xFFFF, space & 0xFFFF, len(file))
    return struct.pack("<BBHHH", *sizes) + file + data


def main(vectors, folder):
    folder.mkdir(parents=True, exist_ok=True)
    for path in sorted(vectors.glob("*.txt")):
        call = path.name.split(".")[0]
        for line, text in enumerate(path.read_text().splitlines(), start=1):
            words = text.split(" -> ")[0].split(" ")
            made = packed(**parts(call, words))
            if len(made) <= 4096:
                (folder / f"{path.stem}-{line}").write_bytes(made)


if __name__ == "__main__":
    if len(sys.argv) != 3:
        raise SystemExit(__doc__)
    main(Path(sys.argv[1]), Path(sys.argv[2]))
