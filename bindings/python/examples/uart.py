#!/usr/bin/env python3
"""A UART transmitter of eight bits, no parity, one stop bit; the clocks of a bit are a parameter of the module."""
from vast import File


def uart() -> str:
    """The text of the module."""
    with File() as f, f.module("uart_tx") as m:
        clocks = m.parameter("CLOCKS", 868)
        clk, rst_n, start = m.inputs("clk", "rst_n", "start")
        data = m.input("data", 8)
        tx, busy = m.outputs("tx", "busy")
        names = ("IDLE", "START", "DATA", "STOP")
        idle, begin, send, stop = (m.localparam(name, f.bits(2, i)) for i, name in enumerate(names))
        state = m.logic("state", 2)
        ticks = m.logic("ticks", f.call("$clog2", clocks).bit_vector_type_expr())
        place = m.logic("place", 3)
        shift = m.logic("shift", 8)
        last = m.wire("last", 1, ticks.eq(clocks - 1))
        m.assign(busy, state.ne(idle))
        m.assign(tx, state.eq(send).ternary(shift[0], state.ne(begin)))
        with m.always_ff(clk.posedge, rst_n.negedge) as block:
            with block.if_(rst_n.logical_not()) as arm:
                arm.nonblocking(state, idle)
                for register in (ticks, place, shift):
                    arm.nonblocking(register, 0)
            with arm.else_() as arm:
                arm.nonblocking(ticks, state.eq(idle).logical_or(last).ternary(0, ticks + 1))
                with arm.case(state, unique=True) as cases:
                    with cases.item(idle).if_(start) as then:
                        then.nonblocking(state, begin)
                        then.nonblocking(shift, data)
                    with cases.item(begin).if_(last) as then:
                        then.nonblocking(state, send)
                    with cases.item(send).if_(last) as then:
                        then.nonblocking(shift, shift >> 1)
                        then.nonblocking(place, place + 1)
                        with then.if_(place.and_reduce()) as full:
                            full.nonblocking(state, stop)
                    with cases.default().if_(last) as then:
                        then.nonblocking(state, idle)
        return f.emit()


if __name__ == "__main__":
    print(uart(), end="")
