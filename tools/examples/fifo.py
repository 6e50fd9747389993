"""A first-in, first-out queue of words, its depth a power of two: python3 tools/examples/fifo.py [WIDTH DEPTH] | vast_replay

A write is taken where the queue is not full, a read where it is not empty; the front word stands at `read_data`.
Pointers have a bit more than an address: the queue is empty where they are equal, and full where they differ in that
bit alone.
"""
import sys

from lists import List, Some


def fifo(width, depth):
    address = depth.bit_length() - 1
    if depth < 2 or 1 << address != depth:
        raise SystemExit(f"fifo.py: the depth, {depth}, is no power of two above 1")
    f = List()
    bit, word, pointer = f.bits(1), f.bits(width), f.bits(address + 1)
    m = f.AddModule("fifo")
    clk, rst = f.AddInput(m, "clk", bit), f.AddInput(m, "rst", bit)
    write, write_data = f.AddInput(m, "write", bit), f.AddInput(m, "write_data", word)
    read, read_data = f.AddInput(m, "read", bit), f.AddOutput(m, "read_data", word)
    full, empty = f.AddOutput(m, "full", bit), f.AddOutput(m, "empty", bit)

    f.comment("the words, where the next is written (head) and read (tail), and whether one is now")
    words = f.AddLogic(m, "words", f.MakeUnpackedArrayType(word, [depth]))
    head, tail = f.AddLogic(m, "head", pointer), f.AddLogic(m, "tail", pointer)
    writes, reads = f.AddLogic(m, "writes", bit), f.AddLogic(m, "reads", bit)

    def place(pointer):
        return f.MakeSlice(pointer, address - 1, 0)

    f.assign(m, empty, f.MakeEq(head, tail))
    is_a_round_ahead = f.MakeNe(f.MakeIndex(head, address), f.MakeIndex(tail, address))
    f.assign(m, full, f.MakeLogicalAnd(is_a_round_ahead, f.MakeEq(place(head), place(tail))))
    f.assign(m, writes, f.MakeLogicalAnd(write, f.MakeLogicalNot(full)))
    f.assign(m, reads, f.MakeLogicalAnd(read, f.MakeLogicalNot(empty)))
    f.assign(m, read_data, f.MakeIndexExpr(words, place(tail)))

    f.comment("the memory has no reset, the pointers have one")
    where_it_writes = f.ConditionalThenBlock(f.BlockAddCond(f.clocked(m, clk), writes))
    f.BlockAddNonblockingAssignment(where_it_writes, f.MakeIndexExpr(words, place(head)), write_data)
    zero, one = f.literal(address + 1, 0), f.literal(address + 1, 1)

    def register(pointer, enable):
        return [pointer, f.MakeAdd(pointer, one), Some(zero), Some(enable)]

    f.AddRegisters(clk, Some([rst, False]), [register(head, writes), register(tail, reads)], m)
    return f


if __name__ == "__main__":
    print(fifo(*map(int, sys.argv[1:] or ["8", "16"])))
