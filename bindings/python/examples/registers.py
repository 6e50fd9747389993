#!/usr/bin/env python3
"""Eight registers of 32 bits behind an AXI-Lite port."""
from vast import File, RegisterDefinition, Reset


def registers(number: int = 8) -> str:
    """The text of the module; so many registers, at most eight."""
    with File() as f, f.module("registers") as m:
        clk, rst_n = m.inputs("clk", "rst_n")
        awvalid, wvalid, bready, arvalid, rready = m.inputs("awvalid", "wvalid", "bready", "arvalid", "rready")
        awaddr, araddr = m.inputs("awaddr", "araddr", data_type=5)
        wdata, wstrb = m.input("wdata", 32), m.input("wstrb", 4)
        awready, wready, bvalid, arready, rvalid = m.outputs("awready", "wready", "bvalid", "arready", "rvalid")
        rdata = m.output("rdata", 32)
        words = m.reg("words", f.make_bit_vector_type(32).unpacked(number))
        answered, read = m.logic("answered"), m.logic("read")
        found, held = m.logic("found", 32), m.logic("held", 32)
        write = m.wire("write", 1, awvalid & wvalid & (~answered | bready))
        take = m.wire("take", 1, arvalid & (~read | rready))
        for port, value in ((awready, write), (wready, write), (bvalid, answered)):
            m.assign(port, value)
        for port, value in ((arready, take), (rvalid, read), (rdata, held)):
            m.assign(port, value)
        with m.loop("i", 0, number, label="each") as each:
            word = words[each.genvar()]
            with each.always_ff(clk.posedge) as block:
                with block.if_(rst_n.logical_not()) as arm:
                    arm.nonblocking(word, 0)
                with arm.else_if(write.logical_and(awaddr[4:2].eq(each.genvar()))) as arm:
                    for lane in range(4):
                        with arm.if_(wstrb[lane]) as then:
                            part = slice(8 * lane + 7, 8 * lane)
                            then.nonblocking(word[part], wdata[part])
        with m.always_comb() as block, block.case(araddr[4:2]) as cases:
            for i in range(number):
                cases.item(f.bits(3, i)).blocking(found, words[i])
            cases.default().blocking(found, 0)
        one_bit = ((answered, write | (answered & ~bready)), (read, take | (read & ~rready)))
        kept = [RegisterDefinition(register, value, f.bits(1, 0)) for register, value in one_bit]
        m.registers(clk, kept + [RegisterDefinition(held, found, enable=take)], Reset(rst_n, True))
        return f.emit()


if __name__ == "__main__":
    print(registers(), end="")
