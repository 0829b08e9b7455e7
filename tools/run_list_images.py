#!/usr/bin/env python3
"""Writes crates/run_list/src/images.rt: the tables that the program run_list makes voices of.

    tools/run_list_images.py            writes the file, as `rt fmt` lays it out
    tools/run_list_images.py --check    compares it with what it would write; status 1 where it differs

Each has entries of one partial (M = 1, k = 1, j = 0, coefficient 1.0, stretch 1.0, no metadata but for the last one's span) with
pitches 100, 110, ..
"""
import struct
import sys
from pathlib import Path

sys.path.insert(0, str(Path(__file__).resolve().parent))
import made


SPAN = {b"noise_band_min_hz": 80.0, b"noise_band_max_hz": 12000.0}


def image(pitches, partials=1, metadata={}):
    out = b"MSCT" + struct.pack("<HII", 1, 0, len(pitches))
    for p in pitches:
        out += struct.pack("<ffI", p, 1.0, partials)
        out += struct.pack(f"<{partials}f", *([p] * partials))
        out += struct.pack("<III", 1, 0, partials)
        out += struct.pack(f"<{partials}f", *([1.0] * partials))
        out += struct.pack("<I", len(metadata))
        for key, value in metadata.items():
            out += struct.pack("<I", len(key)) + key + struct.pack("<f", value)
    return out


TABLES = [
    ("SIXTEEN", "16 entries", image([100.0 + 10 * i for i in range(16)])),
    ("SEVENTEEN", "17 entries", image([100.0 + 10 * i for i in range(17)])),
    ("WIDE", "an entry of 33 partials", image([100.0], 33)),
    ("FLAT", "the second of two entries has pitch 0", image([100.0, 0.0])),
    ("EMPTY", "no entries", image([])),
    ("SPANNED", "an entry with a span of noise bands", image([100.0], 1, SPAN)),
]


def files():
    out = "// Tables for the runs, written by tools/run_list_images.py.\n"
    for name, what, data in TABLES:
        head, numbers = f"pub const {name}: [u8; {len(data)}] = [", [str(b) for b in data]
        line = head + ", ".join(numbers) + "];"
        out += f"\n// {what}\n" + (line if len(line) <= 100 else head + "\n" + made.rows(numbers) + "];") + "\n"
    return {"crates/run_list/src/images.rt": out.encode()}


if __name__ == "__main__":
    sys.exit(made.main(__doc__, files))
