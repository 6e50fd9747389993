//! Calls that make a type.
//!
//! Written by tools/bindings_from_calls from the table of calls; not to be edited.

use crate::calls::Call;
use crate::conditions::{are_dimensions, packed_condition, unpacked_condition};
use crate::file::VastFile;
use crate::handles::{Expr, VastDataType};
use crate::known::Width;

impl VastFile {
    /// The type of one bit.
    pub fn make_scalar_type(&mut self) -> VastDataType {
        VastDataType(self.later(Call::MakeScalarType, |calls| calls))
    }

    /// Verilog's `integer`.
    pub fn make_integer_type(&mut self, signed: bool) -> VastDataType {
        VastDataType(self.later(Call::MakeIntegerType, |calls| calls.truth(signed)))
    }

    /// SystemVerilog's `int`.
    pub fn make_int_type(&mut self, signed: bool) -> VastDataType {
        VastDataType(self.later(Call::MakeIntType, |calls| calls.truth(signed)))
    }

    /// A type of this name that is declared elsewhere.
    pub fn make_extern_type(&mut self, name: &str) -> VastDataType {
        VastDataType(self.later(Call::MakeExternType, |calls| calls.text(name)))
    }

    /// A type of this name that is declared in a package, `package::name`.
    pub fn make_extern_package_type(&mut self, package_name: &str, name: &str) -> VastDataType {
        VastDataType(self.later(Call::MakeExternPackageType, |calls| {
            calls.text(package_name).text(name)
        }))
    }

    /// The type of `bit_count` bits; of one bit it is a scalar.
    ///
    /// # Panics
    /// With `bit-vector width must be greater than zero`, where that is not so.
    pub fn make_bit_vector_type(&mut self, bit_count: i64, signed: bool) -> VastDataType {
        let is_certain = bit_count >= 1;
        let made = self.made(
            is_certain,
            Call::MakeBitVectorType,
            "bit-vector width must be greater than zero",
            |calls| calls.number(bit_count).truth(signed),
        );
        self.keep_width(made, Width::Bits(bit_count));
        VastDataType(made)
    }

    /// The vector whose width is the expression; [`VastFile::width_is_usable`] is the test.
    ///
    /// # Panics
    /// With `bit-vector width must be greater than zero`, where that is not so.
    pub fn make_bit_vector_type_expr(&mut self, width: &Expr, signed: bool) -> VastDataType {
        let width_step = self.own(width.0);
        let made = self.made(
            false,
            Call::MakeBitVectorTypeExpr,
            "bit-vector width must be greater than zero",
            |calls| calls.step(width_step).truth(signed),
        );
        self.keep_width(made, Width::Expression(width_step));
        VastDataType(made)
    }

    /// The packed array of elements of a type, with its dimensions from the outermost;
    /// [`VastFile::type_can_be_packed`] is the test of the type.
    ///
    /// # Panics
    /// Where a condition of the call isn't met, with its words.
    pub fn make_packed_array_type(
        &mut self,
        element: VastDataType,
        dimensions: &[i64],
    ) -> VastDataType {
        let element_step = self.own(element.0);
        let made = self.made_or(
            false,
            Call::MakePackedArrayType,
            |calls| calls.step(element_step).numbers(dimensions),
            |state| packed_condition(state, element_step, dimensions),
        );
        self.keep_width(made, Width::Element(element_step));
        VastDataType(made)
    }

    /// The unpacked array of elements of a type, with its dimensions from the outermost.
    ///
    /// # Panics
    /// Where a condition of the call isn't met, with its words.
    pub fn make_unpacked_array_type(
        &mut self,
        element: VastDataType,
        dimensions: &[i64],
    ) -> VastDataType {
        let element_step = self.own(element.0);
        let is_certain = are_dimensions(dimensions);
        let made = self.made_or(
            is_certain,
            Call::MakeUnpackedArrayType,
            |calls| calls.step(element_step).numbers(dimensions),
            |_| unpacked_condition(dimensions),
        );
        self.keep_width(made, Width::Element(element_step));
        VastDataType(made)
    }
}
