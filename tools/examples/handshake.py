"""Takes a packet, works on it for a clock and gives it back: python3 tools/examples/handshake.py | vast_replay

The states are an enumeration and a packet is a packed structure, both declared in the file, so that its ports may have
them. While `ready` is high a packet with `valid` is taken; a clock later its data is one more, and `done` is high for a
clock, with the packet at `reply`.
"""
from lists import List, Some, Word


def handshake():
    f = List()
    bit, two = f.MakeScalarType(), f.bits(2)
    state_t = f.AddFileEnumTypedef("state_t", two, ["IDLE", "BUSY", "DONE"], [Some(f.literal(2, 0)), None, None])
    tag, data = f.MakeDef("tag", Word("Logic"), f.bits(4)), f.MakeDef("data", Word("Logic"), f.bits(8))
    packet_t = f.AddFileStructTypedef("packet_t", [tag, data])
    idle, busy, done = (f.MakeName(name) for name in ("IDLE", "BUSY", "DONE"))

    m = f.AddModule("handshake")
    clk, rst, valid = (f.AddInput(m, name, bit) for name in ("clk", "rst", "valid"))
    request = f.AddInput(m, "request", packet_t)
    ready, finished = f.AddOutput(m, "ready", bit), f.AddOutput(m, "done", bit)
    reply = f.AddOutput(m, "reply", packet_t)
    state, held = f.AddVariable(m, "state", state_t), f.AddVariable(m, "held", packet_t)
    f.assign(m, ready, f.MakeEq(state, idle))
    f.assign(m, finished, f.MakeEq(state, done))
    f.assign(m, reply, held)

    conditional = f.BlockAddCond(f.clocked(m, clk), rst)
    f.BlockAddNonblockingAssignment(f.ConditionalThenBlock(conditional), state, idle)
    states = f.BlockAddCase(f.ConditionalAddElse(conditional), state)
    taken = f.ConditionalThenBlock(f.BlockAddCond(f.CaseAddItem(states, idle), valid))
    f.BlockAddNonblockingAssignment(taken, held, request)
    f.BlockAddNonblockingAssignment(taken, state, busy)
    works = f.CaseAddItem(states, busy)
    value = f.MakeMember(held, "data")
    f.BlockAddNonblockingAssignment(works, value, f.MakeAdd(value, f.literal(8, 1)))
    f.BlockAddNonblockingAssignment(works, state, done)
    f.BlockAddNonblockingAssignment(f.CaseAddDefault(states), state, idle)
    return f


if __name__ == "__main__":
    print(handshake())
