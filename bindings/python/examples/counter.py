#!/usr/bin/env python3
"""The counter of docs/use/LISTS.md."""
from vast import File, RegisterDefinition, Reset


def counter() -> str:
    """The text of the module."""
    with File() as f, f.module("counter") as m:
        clk, rst = m.inputs("clk", "rst")
        count = m.output("count", 8)
        value = m.logic("value", 8)
        m.assign(count, value)
        m.registers(clk, [RegisterDefinition(value, value + f.bits(8, 1), f.bits(8, 0))], Reset(rst))
        return f.emit()


if __name__ == "__main__":
    print(counter(), end="")
