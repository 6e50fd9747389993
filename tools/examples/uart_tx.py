"""A transmitter of bytes, 8 data bits and 1 stop bit: python3 tools/examples/uart_tx.py [CLOCKS_A_BIT] | vast_replay

Where it is not busy, `start` takes the byte. The line is low for one bit, holds the byte from its lowest bit on, and is
high for one bit at least.
"""
import sys

from lists import List

BITS = 10


def uart_tx(clocks):
    if clocks < 1:
        raise SystemExit(f"uart_tx.py: {clocks} clocks a bit are below 1")
    f = List()
    wide = max(1, (clocks - 1).bit_length())
    bit, byte, frame_type, count, timer_type = (f.bits(width) for width in (1, 8, BITS, 4, wide))
    m = f.AddModule("uart_tx")
    clk, rst = f.AddInput(m, "clk", bit), f.AddInput(m, "rst", bit)
    start, data = f.AddInput(m, "start", bit), f.AddInput(m, "data", byte)
    busy, tx = f.AddOutput(m, "busy", bit), f.AddOutput(m, "tx", bit)

    f.comment("the bits that are left to send, the next first; how many; the clocks that this one has had")
    frame, left = f.AddLogic(m, "frame", frame_type), f.AddLogic(m, "left", count)
    timer = f.AddLogic(m, "timer", timer_type)
    high, low = f.literal(1, 1), f.literal(1, 0)
    none_left, no_clocks, last_clock = f.literal(4, 0), f.literal(wide, 0), f.literal(wide, clocks - 1)
    f.assign(m, busy, f.MakeNe(left, none_left))
    f.assign(m, tx, f.MakeIndex(frame, 0))

    def becomes(block, register, value):
        f.BlockAddNonblockingAssignment(block, register, value)

    block = f.clocked(m, clk)
    reset = f.BlockAddCond(block, rst)
    at_reset = f.ConditionalThenBlock(reset)
    becomes(at_reset, frame, f.literal(BITS, 2**BITS - 1))
    becomes(at_reset, left, none_left)
    becomes(at_reset, timer, no_clocks)

    f.comment("a byte is taken")
    at_start = f.ConditionalAddElseIf(reset, f.MakeLogicalAnd(start, f.MakeLogicalNot(busy)))
    becomes(at_start, frame, f.MakeConcat([high, data, low]))
    becomes(at_start, left, f.literal(4, BITS))
    becomes(at_start, timer, no_clocks)

    f.comment("one clock more, and behind the last the next bit")
    at_clock = f.ConditionalAddElseIf(reset, busy)
    bit_ends = f.BlockAddCond(at_clock, f.MakeEq(timer, last_clock))
    at_end = f.ConditionalThenBlock(bit_ends)
    becomes(at_end, frame, f.MakeConcat([high, f.MakeSlice(frame, BITS - 1, 1)]))
    becomes(at_end, left, f.MakeSub(left, f.literal(4, 1)))
    becomes(at_end, timer, no_clocks)
    becomes(f.ConditionalAddElse(bit_ends), timer, f.MakeAdd(timer, f.literal(wide, 1)))
    return f


if __name__ == "__main__":
    print(uart_tx(*map(int, sys.argv[1:] or ["16"])))
