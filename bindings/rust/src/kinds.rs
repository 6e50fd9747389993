//! Words that calls take.

/// The dialect of a file.
#[derive(Clone, Copy, Debug, PartialEq, Eq, Hash)]
pub enum VastFileType {
    Verilog,
    SystemVerilog,
}

/// Which way a port goes.
#[derive(Clone, Copy, Debug, PartialEq, Eq, Hash)]
pub enum ModulePortDirection {
    Input,
    Output,
    InOut,
}

/// The keyword of a declaration.
#[derive(Clone, Copy, Debug, PartialEq, Eq, Hash)]
pub enum DataKind {
    Reg,
    Wire,
    Logic,
    Integer,
    Int,
    User,
    UntypedEnum,
    Genvar,
}

/// The three forms of a procedural block.
#[derive(Clone, Copy, Debug, PartialEq, Eq, Hash)]
pub enum AlwaysKind {
    AlwaysFF,
    AlwaysAt,
    AlwaysComb,
}

/// How a number is written.
#[derive(Clone, Copy, Debug, PartialEq, Eq, Hash)]
pub enum LiteralFormat {
    /// With its width, as many binary digits as bits: `8'b0000_0011`.
    Binary,
    /// With its width, in hexadecimal digits for all its bits: `8'h03`.
    Hex,
    /// With its width, as a signed decimal number in two's complement: `-8'sd1`.
    SignedDecimal,
    /// With its width, as a decimal number without sign: `8'd255`.
    UnsignedDecimal,
    /// Without width, in binary digits, at most `u32::MAX`: `'b11`.
    UnsizedBinary,
    /// Without width, as a decimal number of at most `i32::MAX`: `255`.
    UnsizedDecimal,
    /// Without width, in hexadecimal digits, at most `u32::MAX`: `'hff`.
    UnsizedHex,
}
