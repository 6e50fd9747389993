//! What a file holds.

use crate::calls::Call;
use crate::error::VastError;
use crate::file::{refusal, VastFile};
use crate::handles::{Expr, LogicRef, ModulePort, VastDataType, VastModule};
use crate::kinds::{LiteralFormat, ModulePortDirection};
use crate::known::Width;
use crate::state::give_up;

impl VastFile {
    /// The expression's text.
    ///
    /// # Panics
    /// With the library's words where the expression has no text.
    pub fn emit_expression(&self, expression: &Expr) -> String {
        self.asked(Call::EmitExpression, self.own(expression.0))
    }

    /// Whether each printed name is an identifier, no edge stands in an expression, and no text is inline; an include's path
    /// and left sides are then such that the text reads back as the file.
    pub fn is_plain(&self) -> bool {
        let answer = self.locked().ask(Call::FileIsPlain, |calls| calls);
        answer.unwrap_or_else(|fault| give_up(fault, "")) == "true"
    }

    /// The module's name.
    pub fn module_name(&self, module: VastModule) -> String {
        self.asked(Call::ModuleName, self.own(module.0))
    }

    /// How many members the module has, which is the place of the next.
    pub fn module_member_count(&self, module: VastModule) -> usize {
        number_of(&self.asked(Call::ModuleMemberCount, self.own(module.0)))
    }

    /// The module's ports, in the order of their calls.
    pub fn module_ports(&self, module: VastModule) -> Vec<ModulePort> {
        self.ports_that(module, |_| true)
    }

    /// The module's inputs, in the order of their calls.
    pub fn module_input_ports(&self, module: VastModule) -> Vec<ModulePort> {
        self.ports_that(module, |direction| direction == ModulePortDirection::Input)
    }

    /// The module's outputs, in the order of their calls.
    pub fn module_output_ports(&self, module: VastModule) -> Vec<ModulePort> {
        self.ports_that(module, |direction| direction == ModulePortDirection::Output)
    }

    /// Which way the port goes.
    pub fn port_direction(&self, port: ModulePort) -> ModulePortDirection {
        let place = self.own(port.0);
        self.locked().known.ports[place].direction
    }

    /// The port's name.
    pub fn port_name(&self, port: ModulePort) -> String {
        self.logic_ref_name(self.port_logic_ref(port))
    }

    /// The port's type.
    pub fn port_data_type(&self, port: ModulePort) -> VastDataType {
        let place = self.own(port.0);
        let data_type = self.locked().known.ports[place].data_type;
        VastDataType(self.id(data_type))
    }

    /// How many bits the port has in all; 0 where that is not known.
    pub fn port_width(&self, port: ModulePort) -> i64 {
        self.type_flat_bit_count_as_int64(self.port_data_type(port))
            .unwrap_or_default()
    }

    /// The port's name as an expression.
    pub fn port_logic_ref(&self, port: ModulePort) -> LogicRef {
        let place = self.own(port.0);
        let logic_ref = self.locked().known.ports[place].logic_ref;
        LogicRef(self.id(logic_ref))
    }

    /// The name.
    pub fn logic_ref_name(&self, logic_ref: LogicRef) -> String {
        self.asked(Call::LogicRefName, self.own(logic_ref.0))
    }

    /// The width of a vector, or of an array's element, as an expression.
    pub fn type_width_expr(&self, data_type: VastDataType) -> Option<Expr> {
        let mut data_type = self.own(data_type.0);
        let mut state = self.locked();
        loop {
            match *state.known.widths.get(&data_type)? {
                Width::Element(element) => data_type = element,
                Width::Expression(step) => return Some(Expr(self.id(step))),
                Width::Bits(bits) => {
                    // Such a number is bare up to the greatest that tools agree on.
                    let format = match i32::try_from(bits) {
                        Ok(_) => LiteralFormat::UnsizedDecimal,
                        Err(_) => LiteralFormat::UnsignedDecimal,
                    };
                    let text = format!("bits[64]:{bits}");
                    let made = state.step(true, Call::MakeLiteral, |calls| {
                        calls.text(&text).count(format.place())
                    });
                    let step = made.unwrap_or_else(|fault| give_up(fault, ""));
                    state.known.keep_width(data_type, Width::Expression(step));
                }
            }
        }
    }

    /// Whether the type is signed.
    pub fn type_is_signed(&self, data_type: VastDataType) -> bool {
        self.asked(Call::TypeIsSigned, self.own(data_type.0)) == "true"
    }

    /// The width of a scalar or a vector, or of an array's element, in bits.
    ///
    /// # Errors
    /// Where it is no number, or the type has none.
    pub fn type_width_as_int64(&self, data_type: VastDataType) -> Result<i64, VastError> {
        self.width(Call::TypeWidthAsInt64, self.own(data_type.0))
    }

    /// The bits of a value of the type, in all.
    ///
    /// # Errors
    /// Where their number is not known, or above `i64::MAX`.
    pub fn type_flat_bit_count_as_int64(&self, data_type: VastDataType) -> Result<i64, VastError> {
        self.width(Call::TypeFlatBitCountAsInt64, self.own(data_type.0))
    }

    fn ports_that(
        &self,
        module: VastModule,
        is_wanted: impl Fn(ModulePortDirection) -> bool,
    ) -> Vec<ModulePort> {
        let owner = self.own(module.0);
        let state = self.locked();
        let known = &state.known;
        known
            .ports_of(owner)
            .filter(|place| is_wanted(known.ports[*place].direction))
            .map(|place| ModulePort(self.id(place)))
            .collect()
    }

    fn asked(&self, question: Call, step: usize) -> String {
        let answer = self.locked().ask(question, |calls| calls.step(step));
        answer.unwrap_or_else(|fault| give_up(fault, ""))
    }

    fn width(&self, question: Call, step: usize) -> Result<i64, VastError> {
        match self.locked().ask(question, |calls| calls.step(step)) {
            Ok(answer) => Ok(number_of(&answer)),
            Err(fault) => Err(refusal(fault, "")),
        }
    }
}

/// The number that a question answered.
fn number_of<N: std::str::FromStr + Default>(answer: &str) -> N {
    answer.parse().unwrap_or_default()
}
