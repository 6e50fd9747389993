//! Calls wait where nothing can refuse them, and each refusal comes from the call that is refused.

use std::panic::{self, AssertUnwindSafe};
use xlsynth_vast::{LiteralFormat, VastFile, VastFileType};

/// The words of the panic that the call ends by.
fn panics<T>(call: impl FnOnce() -> T) -> String {
    let hook = panic::take_hook();
    panic::set_hook(Box::new(|_| {}));
    let ended = panic::catch_unwind(AssertUnwindSafe(call));
    panic::set_hook(hook);
    let Err(payload) = ended else {
        panic!("the call returns");
    };
    match payload.downcast::<String>() {
        Ok(words) => *words,
        Err(_) => String::new(),
    }
}

#[test]
fn a_taken_name_is_told_by_its_own_call() {
    let mut file = VastFile::new(VastFileType::SystemVerilog);
    let [first, second] = ["first", "second"].map(|name| file.add_module(name));
    let bit = file.make_scalar_type();
    file.add_wire(first, "a", &bit);
    file.add_wire(second, "a", &bit);
    assert!(panics(|| file.add_wire(first, "a", &bit)).starts_with("module wires must have"));
    assert!(panics(|| file.add_input(first, "a", &bit)).starts_with("module ports must have"));
    let error = file.add_reg(first, "a", &bit).unwrap_err();
    assert!(error.0.contains("Already defined: [a]"), "{error}");
    let b = file.add_logic(first, "b", &bit).unwrap();
    assert_eq!(file.logic_ref_name(b), "b");
    let function = file.add_function(first, "f", &bit).unwrap();
    assert!(file.add_logic(first, "f", &bit).is_err());
    assert!(file.function_add_input(function, "f", &bit).is_err());
    file.function_add_input(function, "a", &bit).unwrap();
    assert!(file.function_add_reg(function, "a", &bit).is_err());
    let text = file.emit();
    assert!(
        text.ends_with("module second;\n  wire a;\nendmodule\n"),
        "{text}"
    );
}

#[test]
fn an_array_is_no_result_and_no_cast() {
    let mut file = VastFile::new(VastFileType::SystemVerilog);
    let module = file.add_module("m");
    let bit = file.make_scalar_type();
    let one = file.make_unsized_one_literal();
    let array = file.make_unpacked_array_type(bit, &[2]);
    assert!(file.add_function(module, "f", &array).is_err());
    file.add_function(module, "f", &bit).unwrap();
    let words = panics(|| file.make_type_cast(&array, &one));
    assert!(
        words.starts_with("unpacked array types cannot be used in type casts"),
        "{words}"
    );
    let words = panics(|| file.make_unpacked_array_type(bit, &[2, 0]));
    assert!(
        words.starts_with("unpacked-array dimensions must be greater"),
        "{words}"
    );
}

#[test]
fn a_second_else_is_told_by_its_own_call() {
    let mut file = VastFile::new(VastFileType::Verilog);
    let module = file.add_module("m");
    let one = file.make_unsized_one_literal();
    let conditional = file.add_conditional(module, &one);
    file.conditional_add_else_if(conditional, &one);
    file.conditional_add_else(conditional);
    assert!(panics(|| file.conditional_add_else(conditional)).starts_with("cannot add another"));
    let words = panics(|| file.conditional_add_else_if(conditional, &one));
    assert!(words.starts_with("cannot add an else-if"), "{words}");
    assert!(panics(|| file.make_bit_vector_type(0, false)).starts_with("bit-vector width must"));
}

#[test]
fn literals_that_wait_are_taken() {
    let mut file = VastFile::new(VastFileType::SystemVerilog);
    let formats = [
        LiteralFormat::Binary,
        LiteralFormat::Hex,
        LiteralFormat::SignedDecimal,
        LiteralFormat::UnsignedDecimal,
        LiteralFormat::UnsizedBinary,
        LiteralFormat::UnsizedDecimal,
        LiteralFormat::UnsizedHex,
    ];
    for format in formats {
        for text in [
            "bits[1]:0",
            "bits[1]:1",
            "bits[8]:255",
            "bits[31]:2147483647",
            "bits[64]:7",
        ] {
            let literal = file.make_literal(text, &format).unwrap();
            assert!(!file.emit_expression(&literal).is_empty());
        }
        for text in [
            "bits[0]:0",
            "bits[1]:2",
            "bits[8]:256",
            "bits[8]",
            "bits[8]:",
            "bits[+8]:1x",
        ] {
            assert!(file.make_literal(text, &format).is_err(), "{text}");
        }
    }
    let decimal = LiteralFormat::UnsizedDecimal;
    assert!(file.make_literal("bits[64]:2147483648", &decimal).is_err());
    let pattern = file.make_binary_pattern("1?0").unwrap();
    assert_eq!(file.emit_expression(&pattern), "3'b1?0");
    assert!(file.make_binary_pattern("").is_err());
    assert!(file.make_binary_pattern("2").is_err());
}

#[test]
fn many_calls_wait() {
    let mut file = VastFile::new(VastFileType::SystemVerilog);
    let module = file.add_module("m");
    let byte = file.make_bit_vector_type(8, false);
    let term = file.add_input(module, "a\\\"\n", &byte);
    let mut sum = term.to_expr();
    for _ in 0..20_000 {
        sum = file.make_add(&sum, &term.to_expr());
    }
    assert!(file.emit_expression(&sum).ends_with(" + a\\\"\n"));
    assert_eq!(file.module_ports(module).len(), 1);
    assert_eq!(file.port_name(file.module_ports(module)[0]), "a\\\"\n");
    let mut other = VastFile::new(VastFileType::SystemVerilog);
    assert_eq!(panics(|| other.make_not(&sum)).lines().count(), 3);
    assert_eq!(other.emit(), "");
}

#[test]
fn a_then_block_is_the_same_whenever_it_is_asked() {
    let texts = [VastFile::new, VastFile::with_lint].map(|open| {
        let mut file = open(VastFileType::SystemVerilog);
        let module = file.add_module("m");
        let bit = file.make_scalar_type();
        let a = file.add_input(module, "a", &bit).to_expr();
        let b = file.add_output(module, "b", &bit).to_expr();
        let always = file.add_always_comb(module).unwrap();
        let body = file.statement_block(always);
        let [first, second] = [(); 2].map(|()| file.block_add_cond(body, &a));
        let inner = file.conditional_then_block(second);
        file.block_add_blocking_assignment(inner, &b, &a);
        let outer = file.conditional_then_block(first);
        assert_ne!(outer, inner);
        assert_eq!(outer, file.conditional_then_block(first));
        assert_eq!(inner, file.conditional_then_block(second));
        file.block_add_blocking_assignment(outer, &b, &b);
        file.emit()
    });
    assert_eq!(texts[0], texts[1]);
    assert!(texts[0].contains("b = b;"), "{}", texts[0]);
}
