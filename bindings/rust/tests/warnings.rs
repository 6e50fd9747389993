//! What a file with a lint tells of its calls.

use std::panic::{self, AssertUnwindSafe};
use xlsynth_vast::{VastFile, VastFileType, VastWarning};

fn warning(line: usize, call: &str, text: Option<&str>, why: &str, tools: &str) -> VastWarning {
    VastWarning {
        line,
        call: call.to_owned(),
        text: text.map(str::to_owned),
        why: why.to_owned(),
        tools: tools.to_owned(),
    }
}

#[test]
fn what_tools_refuse_is_told() {
    let mut file = VastFile::with_lint(VastFileType::SystemVerilog);
    let module = file.add_module("m");
    let byte = file.make_bit_vector_type(8, false);
    let a = file.add_wire(module, "a", &byte);
    assert_eq!(file.warnings(), []);
    file.make_index(&a.to_indexable_expr(), 1);
    assert_eq!(file.warnings(), []);
    let sum = file.make_add(&a.to_expr(), &a.to_expr());
    let subject = file.make_indexable_expression(&sum);
    assert!(file.add_reg(module, "a", &byte).is_err());
    file.make_index(&subject, 1);
    let why = "a select of a computed value is no SystemVerilog";
    let tools = "Icarus, Verilator, Yosys refuse it";
    let told = file.warnings();
    assert_eq!(
        told,
        [warning(7, "MakeIndex", Some("(a + a)[1]"), why, tools)]
    );
    assert_eq!(
        told[0].to_string(),
        format!("MakeIndex: prints \"(a + a)[1]\": {why} ({tools})")
    );
    assert_eq!(file.emit(), "module m;\n  wire [7:0] a;\nendmodule\n");
}

#[test]
fn what_the_end_tells_is_mended() {
    let mut file = VastFile::with_lint(VastFileType::SystemVerilog);
    let module = file.add_module("m");
    let bit = file.make_scalar_type();
    let a = file.add_wire(module, "a", &bit);
    let always = file.add_always_comb(module).unwrap();
    let block = file.statement_block(always);
    let case = file.block_add_case(block, &a.to_expr());
    let why = "a case without arms is no SystemVerilog";
    let told = [warning(6, "BlockAddCase", None, why, "Icarus refuses it")];
    assert_eq!(file.warnings(), told);
    file.case_add_default(case);
    assert_eq!(file.warnings(), []);
}

#[test]
fn verilog_has_rules_of_its_own() {
    for (dialect, told) in [
        (VastFileType::Verilog, 40),
        (VastFileType::SystemVerilog, 0),
    ] {
        let mut file = VastFile::with_lint(dialect);
        let module = file.add_module("m");
        let bit = file.make_scalar_type();
        for number in 0..40 {
            let name = format!("w{number}");
            file.add_logic(module, &name, &bit).unwrap();
        }
        let warnings = file.warnings();
        assert_eq!(warnings.len(), told);
        assert!(warnings.iter().all(|warning| warning.call == "AddLogic"
            && warning.why == "`logic` is no Verilog"
            && warning.tools == "Verilator, Yosys refuse it"));
    }
}

#[test]
fn a_file_without_a_lint_tells_none() {
    let file = VastFile::new(VastFileType::Verilog);
    let quiet = panic::take_hook();
    panic::set_hook(Box::new(|_| ()));
    let told = panic::catch_unwind(AssertUnwindSafe(|| file.warnings()));
    panic::set_hook(quiet);
    assert!(told.is_err());
}
