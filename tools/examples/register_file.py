"""Registers that are read at several ports: python3 tools/examples/register_file.py [WIDTH REGISTERS PORTS] | vast_replay

Register 0 is always 0. One port writes at the clock; a port that reads the register that is written has the new value at
once.
"""
import sys

from lists import List


def register_file(width, registers, ports):
    if registers < 2 or width < 1 or ports < 1:
        raise SystemExit("register_file.py: a bit, 2 registers and a port at least")
    f = List()
    address_bits = (registers - 1).bit_length()
    bit, word, address = f.bits(1), f.bits(width), f.bits(address_bits)
    m = f.AddModule("register_file")
    clk, enable = f.AddInput(m, "clk", bit), f.AddInput(m, "write_enable", bit)
    write_address, write_data = f.AddInput(m, "write_address", address), f.AddInput(m, "write_data", word)
    reads = [
        (f.AddInput(m, f"read_address_{port}", address), f.AddOutput(m, f"read_data_{port}", word))
        for port in range(ports)
    ]

    f.comment("the registers, and whether one is written now")
    values = f.AddLogic(m, "registers", f.MakeUnpackedArrayType(word, [registers]))
    writes = f.AddLogic(m, "writes", bit)
    zero_address, zero = f.literal(address_bits, 0), f.literal(width, 0)
    f.assign(m, writes, f.LogicalAndReduce([enable, f.MakeNe(write_address, zero_address)], False))

    f.comment("what each port reads")
    for read_address, read_data in reads:
        held = f.MakeIndexExpr(values, read_address)
        is_written = f.LogicalAndReduce([writes, f.MakeEq(read_address, write_address)], False)
        new_or_held = f.MakeTernary(is_written, write_data, held)
        is_zero = f.MakeEq(read_address, zero_address)
        f.assign(m, read_data, f.MakeTernary(is_zero, zero, new_or_held))

    where_it_writes = f.ConditionalThenBlock(f.BlockAddCond(f.clocked(m, clk), writes))
    f.BlockAddNonblockingAssignment(where_it_writes, f.MakeIndexExpr(values, write_address), write_data)
    return f


if __name__ == "__main__":
    print(register_file(*map(int, sys.argv[1:] or ["32", "32", "2"])))
