#!/usr/bin/env python3
"""A FIFO of 2^n words, n at least 1, first word first; the width of a word is a parameter of the module."""
from vast import File


def fifo(n: int = 4) -> str:
    """The text of the module."""
    with File() as f, f.module("fifo") as m:
        word = m.parameter("WIDTH", 8).bit_vector_type_expr()
        clk, rst, push, pop = m.inputs("clk", "rst", "push", "pop")
        data_in = m.input("data_in", word)
        data_out = m.output("data_out", word)
        full, empty = m.outputs("full", "empty")
        count = m.output("count", n + 1)
        memory = m.reg("memory", word.unpacked(2**n))
        head, tail = m.logic("head", n + 1), m.logic("tail", n + 1)
        m.assign(count, head - tail)
        m.assign(full, count.eq(f.bits(n + 1, 2**n)))
        m.assign(empty, head.eq(tail))
        m.assign(data_out, memory[tail[n - 1 : 0]])
        with m.always_ff(clk.posedge) as block:
            with block.if_(rst) as arm:
                arm.nonblocking(head, f.bits(n + 1, 0))
                arm.nonblocking(tail, f.bits(n + 1, 0))
            with arm.else_() as arm:
                with arm.if_(push.logical_and(full.logical_not())) as taken:
                    taken.nonblocking(memory[head[n - 1 : 0]], data_in)
                    taken.nonblocking(head, head + f.bits(n + 1, 1))
                with arm.if_(pop.logical_and(empty.logical_not())) as given:
                    given.nonblocking(tail, tail + f.bits(n + 1, 1))
        return f.emit()


if __name__ == "__main__":
    print(fifo(), end="")
