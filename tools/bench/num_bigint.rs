//! Stands for the crate num-bigint where a Rust crate that uses it is measured without a network: numbers of at most
//! 128 bits, in the place of numbers of any length. Unlike num-bigint it allocates nothing for a number, so what is
//! measured of literals isn't num-bigint's time.

use std::fmt;
use std::ops::{Shl, Sub};

#[derive(Clone, Debug, PartialEq, Eq, PartialOrd, Ord)]
pub struct BigUint(u128);

impl BigUint {
    pub fn parse_bytes(digits: &[u8], radix: u32) -> Option<Self> {
        let digits = std::str::from_utf8(digits).ok()?;
        u128::from_str_radix(digits, radix).ok().map(Self)
    }

    pub fn bits(&self) -> u64 {
        u64::from(128 - self.0.leading_zeros())
    }

    pub fn bit(&self, place: u64) -> bool {
        place < 128 && self.0 >> place & 1 == 1
    }

    pub fn to_str_radix(&self, radix: u32) -> String {
        match radix {
            2 => format!("{:b}", self.0),
            10 => format!("{}", self.0),
            16 => format!("{:x}", self.0),
            _ => unimplemented!("only the radixes of literals"),
        }
    }
}

impl From<u8> for BigUint {
    fn from(number: u8) -> Self {
        Self(number.into())
    }
}

impl From<u32> for BigUint {
    fn from(number: u32) -> Self {
        Self(number.into())
    }
}

impl Shl<usize> for BigUint {
    type Output = Self;

    fn shl(self, places: usize) -> Self {
        Self(self.0 << places)
    }
}

impl Sub for BigUint {
    type Output = Self;

    fn sub(self, other: Self) -> Self {
        Self(self.0 - other.0)
    }
}

impl fmt::Display for BigUint {
    fn fmt(&self, out: &mut fmt::Formatter<'_>) -> fmt::Result {
        self.0.fmt(out)
    }
}

pub enum Sign {
    Plus,
}

pub struct BigInt(i128);

impl BigInt {
    pub fn from_biguint(_sign: Sign, magnitude: BigUint) -> Self {
        Self(magnitude.0.try_into().expect("a number below 2^127"))
    }

    pub fn to_str_radix(&self, _radix: u32) -> String {
        self.0.to_string()
    }
}

impl From<u8> for BigInt {
    fn from(number: u8) -> Self {
        Self(number.into())
    }
}

impl Shl<usize> for BigInt {
    type Output = Self;

    fn shl(self, places: usize) -> Self {
        Self(self.0 << places)
    }
}

impl Sub for BigInt {
    type Output = Self;

    fn sub(self, other: Self) -> Self {
        Self(self.0 - other.0)
    }
}
