"""A table that a file fills, and its test bench: python3 tools/examples/lookup.py [FILE] | vast_replay

The file has 16 words of 8 bits in hexadecimal. A word that is read stands at `word` a clock later. The module `test`
reads all of them once, says whether their sum is right, and ends the simulation; its clock has no period, so that takes
no time.
"""
import sys

from lists import List, Some

DEPTH = 16


def lookup(f, path):
    """The module that reads the file."""
    m = f.AddModule("lookup")
    clk, address = f.AddInput(m, "clk", f.bits(1)), f.AddInput(m, "address", f.bits(4))
    word = f.AddOutput(m, "word", f.bits(8))
    words = f.AddLogic(m, "words", f.MakeUnpackedArrayType(f.bits(8), [DEPTH]))
    front = f.AddLogic(m, "front", f.bits(8))
    start = f.StatementBlock(f.AddInitial(m))
    f.call(start, "$readmemh", [f.MakeStringLiteral(path), words, f.plain(0), f.plain(DEPTH - 1)])
    f.BlockAddNonblockingAssignment(f.clocked(m, clk), front, f.MakeIndexExpr(words, address))
    f.assign(m, word, front)


def bench(f, wanted):
    """The module that reads all words."""
    m = f.AddModule("test")
    clk = f.AddReg(m, "clk", f.bits(1))
    address, total = f.AddReg(m, "address", f.bits(5)), f.AddReg(m, "total", f.bits(16))
    word = f.AddWire(m, "word", f.bits(8))
    f.AddMemberInstantiation(m, f.MakeInstantiation(
        "lookup", "dut", [], [], ["clk", "address", "word"],
        [Some(clk), Some(f.MakeSlice(address, 3, 0)), Some(word)]))
    start = f.StatementBlock(f.AddInitial(m))
    for reg, width in ((clk, 1), (address, 5), (total, 16)):
        f.BlockAddBlockingAssignment(start, reg, f.literal(width, 0))
    turn = f.StatementBlock(f.AddAlwaysAt(m, [clk]))
    on = f.ConditionalThenBlock(f.BlockAddCond(turn, f.MakeLe(address, f.literal(5, DEPTH + 1))))
    f.BlockAddNonblockingAssignment(on, clk, f.MakeNot(clk))
    each = f.clocked(m, clk)
    f.BlockAddNonblockingAssignment(each, address, f.MakeAdd(address, f.literal(5, 1)))
    begun = f.ConditionalThenBlock(f.BlockAddCond(each, f.MakeGt(address, f.literal(5, 0))))
    f.BlockAddNonblockingAssignment(begun, total, f.MakeAdd(total, word))
    end = f.ConditionalThenBlock(f.BlockAddCond(each, f.MakeEq(address, f.literal(5, DEPTH + 1))))
    is_wanted = f.BlockAddCond(end, f.MakeEq(total, f.literal(16, wanted)))
    f.call(f.ConditionalThenBlock(is_wanted), "$display", [f.MakeStringLiteral("passed")])
    f.call(f.ConditionalAddElse(is_wanted), "$display", [f.MakeStringLiteral("the sum is %d"), total])
    f.call(end, "$finish", [])


def main(path="lookup.hex"):
    f = List()
    lookup(f, path)
    bench(f, sum(3 * n for n in range(DEPTH)))
    return f


if __name__ == "__main__":
    print(main(*sys.argv[1:2]))
