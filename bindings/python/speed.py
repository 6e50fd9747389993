#!/usr/bin/env python3
"""Calls a second: so many wires (100,000, or the number given) with an assignment each, and the printing of their file.

The rate is that of all of them, and the best of a thousand of them, which other work on the machine slows less.
"""
import os
import sys
import time

sys.path.insert(0, os.path.dirname(os.path.abspath(__file__)))
from vast import File  # noqa: E402, beside this file


def measure(wires: int, strict: bool) -> None:
    """Prints the calls a second of one file."""
    with File(strict=strict) as f, f.module("m") as m:
        byte = f.make_bit_vector_type(8)
        a = f.add_input(m, "a", byte)
        start = time.perf_counter()
        times = []
        for first in range(0, wires, 1000):
            since = time.perf_counter()
            for i in range(first, min(first + 1000, wires)):
                wire = f.add_wire(m, f"w{i}", byte)
                f.add_member_continuous_assignment(m, f.make_continuous_assignment(wire, a))
            f.flush()
            times.append(time.perf_counter() - since)
        made = time.perf_counter()
        text = f.emit()
        printed = time.perf_counter()
    rate = 3 * wires / (made - start)
    print(
        f"{'strict' if strict else 'not strict'}: {3 * wires} calls in {made - start:.2f} s, {rate:,.0f} a second,"
        f" {3000 / min(times):,.0f} at best; {len(text)} characters printed in {printed - made:.2f} s"
    )


if __name__ == "__main__":
    count = int(sys.argv[1]) if len(sys.argv) > 1 else 100000
    measure(count, strict=True)
    measure(count, strict=False)
