//! Calls that make an expression of one or two operands.
//!
//! Written by tools/bindings_from_calls from the table of calls; not to be edited.

use crate::calls::Call;
use crate::file::VastFile;
use crate::handles::Expr;

impl VastFile {
    /// The bitwise complement `~a`, as [`VastFile::make_bitwise_not`] makes it.
    pub fn make_not(&mut self, expression: &Expr) -> Expr {
        let expression_step = self.own(expression.0);
        Expr(self.later_of(Call::MakeNot, [expression_step]))
    }

    /// The bitwise complement `~a`.
    pub fn make_bitwise_not(&mut self, expression: &Expr) -> Expr {
        let expression_step = self.own(expression.0);
        Expr(self.later_of(Call::MakeBitwiseNot, [expression_step]))
    }

    /// The negation `-a`.
    pub fn make_negate(&mut self, expression: &Expr) -> Expr {
        let expression_step = self.own(expression.0);
        Expr(self.later_of(Call::MakeNegate, [expression_step]))
    }

    /// The logical complement `!a`.
    pub fn make_logical_not(&mut self, expression: &Expr) -> Expr {
        let expression_step = self.own(expression.0);
        Expr(self.later_of(Call::MakeLogicalNot, [expression_step]))
    }

    /// The AND of all bits, `&a`.
    pub fn make_and_reduce(&mut self, expression: &Expr) -> Expr {
        let expression_step = self.own(expression.0);
        Expr(self.later_of(Call::MakeAndReduce, [expression_step]))
    }

    /// The OR of all bits, `|a`.
    pub fn make_or_reduce(&mut self, expression: &Expr) -> Expr {
        let expression_step = self.own(expression.0);
        Expr(self.later_of(Call::MakeOrReduce, [expression_step]))
    }

    /// The XOR of all bits, `^a`.
    pub fn make_xor_reduce(&mut self, expression: &Expr) -> Expr {
        let expression_step = self.own(expression.0);
        Expr(self.later_of(Call::MakeXorReduce, [expression_step]))
    }

    /// The sum `a + b`.
    pub fn make_add(&mut self, lhs: &Expr, rhs: &Expr) -> Expr {
        let lhs_step = self.own(lhs.0);
        let rhs_step = self.own(rhs.0);
        Expr(self.later_of(Call::MakeAdd, [lhs_step, rhs_step]))
    }

    /// The difference `a - b`.
    pub fn make_sub(&mut self, lhs: &Expr, rhs: &Expr) -> Expr {
        let lhs_step = self.own(lhs.0);
        let rhs_step = self.own(rhs.0);
        Expr(self.later_of(Call::MakeSub, [lhs_step, rhs_step]))
    }

    /// The product `a * b`.
    pub fn make_mul(&mut self, lhs: &Expr, rhs: &Expr) -> Expr {
        let lhs_step = self.own(lhs.0);
        let rhs_step = self.own(rhs.0);
        Expr(self.later_of(Call::MakeMul, [lhs_step, rhs_step]))
    }

    /// The quotient `a / b`.
    pub fn make_div(&mut self, lhs: &Expr, rhs: &Expr) -> Expr {
        let lhs_step = self.own(lhs.0);
        let rhs_step = self.own(rhs.0);
        Expr(self.later_of(Call::MakeDiv, [lhs_step, rhs_step]))
    }

    /// The remainder `a % b`.
    pub fn make_mod(&mut self, lhs: &Expr, rhs: &Expr) -> Expr {
        let lhs_step = self.own(lhs.0);
        let rhs_step = self.own(rhs.0);
        Expr(self.later_of(Call::MakeMod, [lhs_step, rhs_step]))
    }

    /// The power `a ** b`.
    pub fn make_power(&mut self, lhs: &Expr, rhs: &Expr) -> Expr {
        let lhs_step = self.own(lhs.0);
        let rhs_step = self.own(rhs.0);
        Expr(self.later_of(Call::MakePower, [lhs_step, rhs_step]))
    }

    /// The bitwise AND `a & b`.
    pub fn make_bitwise_and(&mut self, lhs: &Expr, rhs: &Expr) -> Expr {
        let lhs_step = self.own(lhs.0);
        let rhs_step = self.own(rhs.0);
        Expr(self.later_of(Call::MakeBitwiseAnd, [lhs_step, rhs_step]))
    }

    /// The bitwise OR `a | b`.
    pub fn make_bitwise_or(&mut self, lhs: &Expr, rhs: &Expr) -> Expr {
        let lhs_step = self.own(lhs.0);
        let rhs_step = self.own(rhs.0);
        Expr(self.later_of(Call::MakeBitwiseOr, [lhs_step, rhs_step]))
    }

    /// The bitwise XOR `a ^ b`.
    pub fn make_bitwise_xor(&mut self, lhs: &Expr, rhs: &Expr) -> Expr {
        let lhs_step = self.own(lhs.0);
        let rhs_step = self.own(rhs.0);
        Expr(self.later_of(Call::MakeBitwiseXor, [lhs_step, rhs_step]))
    }

    /// The logical shift to the left, `a << b`.
    pub fn make_shll(&mut self, lhs: &Expr, rhs: &Expr) -> Expr {
        let lhs_step = self.own(lhs.0);
        let rhs_step = self.own(rhs.0);
        Expr(self.later_of(Call::MakeShll, [lhs_step, rhs_step]))
    }

    /// The arithmetic shift to the right, `a >>> b`.
    pub fn make_shra(&mut self, lhs: &Expr, rhs: &Expr) -> Expr {
        let lhs_step = self.own(lhs.0);
        let rhs_step = self.own(rhs.0);
        Expr(self.later_of(Call::MakeShra, [lhs_step, rhs_step]))
    }

    /// The logical shift to the right, `a >> b`.
    pub fn make_shrl(&mut self, lhs: &Expr, rhs: &Expr) -> Expr {
        let lhs_step = self.own(lhs.0);
        let rhs_step = self.own(rhs.0);
        Expr(self.later_of(Call::MakeShrl, [lhs_step, rhs_step]))
    }

    /// The inequality `a != b`.
    pub fn make_ne(&mut self, lhs: &Expr, rhs: &Expr) -> Expr {
        let lhs_step = self.own(lhs.0);
        let rhs_step = self.own(rhs.0);
        Expr(self.later_of(Call::MakeNe, [lhs_step, rhs_step]))
    }

    /// The inequality with unknown bits compared too, `a !== b`.
    pub fn make_case_ne(&mut self, lhs: &Expr, rhs: &Expr) -> Expr {
        let lhs_step = self.own(lhs.0);
        let rhs_step = self.own(rhs.0);
        Expr(self.later_of(Call::MakeCaseNe, [lhs_step, rhs_step]))
    }

    /// The equality `a == b`.
    pub fn make_eq(&mut self, lhs: &Expr, rhs: &Expr) -> Expr {
        let lhs_step = self.own(lhs.0);
        let rhs_step = self.own(rhs.0);
        Expr(self.later_of(Call::MakeEq, [lhs_step, rhs_step]))
    }

    /// The equality with unknown bits compared too, `a === b`.
    pub fn make_case_eq(&mut self, lhs: &Expr, rhs: &Expr) -> Expr {
        let lhs_step = self.own(lhs.0);
        let rhs_step = self.own(rhs.0);
        Expr(self.later_of(Call::MakeCaseEq, [lhs_step, rhs_step]))
    }

    /// The comparison `a >= b`.
    pub fn make_ge(&mut self, lhs: &Expr, rhs: &Expr) -> Expr {
        let lhs_step = self.own(lhs.0);
        let rhs_step = self.own(rhs.0);
        Expr(self.later_of(Call::MakeGe, [lhs_step, rhs_step]))
    }

    /// The comparison `a > b`.
    pub fn make_gt(&mut self, lhs: &Expr, rhs: &Expr) -> Expr {
        let lhs_step = self.own(lhs.0);
        let rhs_step = self.own(rhs.0);
        Expr(self.later_of(Call::MakeGt, [lhs_step, rhs_step]))
    }

    /// The comparison `a <= b`.
    pub fn make_le(&mut self, lhs: &Expr, rhs: &Expr) -> Expr {
        let lhs_step = self.own(lhs.0);
        let rhs_step = self.own(rhs.0);
        Expr(self.later_of(Call::MakeLe, [lhs_step, rhs_step]))
    }

    /// The comparison `a < b`.
    pub fn make_lt(&mut self, lhs: &Expr, rhs: &Expr) -> Expr {
        let lhs_step = self.own(lhs.0);
        let rhs_step = self.own(rhs.0);
        Expr(self.later_of(Call::MakeLt, [lhs_step, rhs_step]))
    }

    /// The logical AND `a && b`.
    pub fn make_logical_and(&mut self, lhs: &Expr, rhs: &Expr) -> Expr {
        let lhs_step = self.own(lhs.0);
        let rhs_step = self.own(rhs.0);
        Expr(self.later_of(Call::MakeLogicalAnd, [lhs_step, rhs_step]))
    }

    /// The logical OR `a || b`.
    pub fn make_logical_or(&mut self, lhs: &Expr, rhs: &Expr) -> Expr {
        let lhs_step = self.own(lhs.0);
        let rhs_step = self.own(rhs.0);
        Expr(self.later_of(Call::MakeLogicalOr, [lhs_step, rhs_step]))
    }

    /// The inequality with an unknown value, written `a !== b`.
    pub fn make_ne_x(&mut self, lhs: &Expr, rhs: &Expr) -> Expr {
        let lhs_step = self.own(lhs.0);
        let rhs_step = self.own(rhs.0);
        Expr(self.later_of(Call::MakeNeX, [lhs_step, rhs_step]))
    }

    /// The equality with an unknown value, written `a === b`.
    pub fn make_eq_x(&mut self, lhs: &Expr, rhs: &Expr) -> Expr {
        let lhs_step = self.own(lhs.0);
        let rhs_step = self.own(rhs.0);
        Expr(self.later_of(Call::MakeEqX, [lhs_step, rhs_step]))
    }
}
