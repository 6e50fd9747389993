"""A memory whose width and depth are parameters: python3 tools/examples/memory.py [WIDTH DEPTH] | vast_replay

The words of the command are the parameters' defaults; who instantiates the module may say others. A word that is read
stands at `read_data` a clock later, as it was before a write at the same clock. At a clock with `rst` all words are
cleared.
"""
import sys

from lists import List


def memory(width, depth):
    if width < 1 or depth < 2:
        raise SystemExit("memory.py: a bit and 2 words at least")
    f = List()
    bit = f.MakeScalarType()
    m = f.AddModule("memory")
    width_of = f.AddParameterPort(m, "WIDTH", f.plain(width))
    depth_of = f.AddParameterPort(m, "DEPTH", f.plain(depth))
    word = f.MakeBitVectorTypeExpr(width_of, False)
    address = f.MakeBitVectorTypeExpr(f.MakeFunctionCall("$clog2", [depth_of]), False)
    clk, rst, write = (f.AddInput(m, name, bit) for name in ("clk", "rst", "write"))
    place, write_data = f.AddInput(m, "address", address), f.AddInput(m, "write_data", word)
    read_data = f.AddOutput(m, "read_data", word)

    words = f.AddLogic(m, "words", f.MakeUnpackedArrayTypeExpr(word, [depth_of]))
    front = f.AddLogic(m, "front", word)
    f.assign(m, read_data, front)
    block = f.clocked(m, clk)
    held = f.MakeIndexExpr(words, place)
    f.BlockAddNonblockingAssignment(block, front, held)
    where_it_writes = f.ConditionalThenBlock(f.BlockAddCond(block, write))
    f.BlockAddNonblockingAssignment(where_it_writes, held, write_data)
    where_it_clears = f.ConditionalThenBlock(f.BlockAddCond(block, rst))
    each = f.BlockAddFor(where_it_clears, "i", f.plain(0), depth_of)
    f.BlockAddNonblockingAssignment(each, f.MakeIndexExpr(words, f.MakeName("i")), f.plain(0))
    return f


if __name__ == "__main__":
    print(memory(*map(int, sys.argv[1:] or ["8", "16"])))
