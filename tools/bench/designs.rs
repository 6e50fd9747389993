//! The designs of `vast_show measure`, built by the same calls of the Rust crate xlsynth-vast: `designs flat 10000 5`.

use std::env;
use std::thread;
use xlsynth_vast::{LiteralFormat, VastFile, VastFileType};

/// The Rust crate prints an expression by recursion.
const STACK: usize = 8 << 30;

fn build_flat(size: usize, file: &mut VastFile) {
    let module = file.add_module("flat");
    let byte = file.make_bit_vector_type(8, false);
    let mut before = file.add_input(module, "data", &byte).to_expr();
    for i in 0..size {
        let wire = file.add_wire(module, &format!("wire_{i}"), &byte).to_expr();
        let assignment = file.make_continuous_assignment(&wire, &before);
        file.add_member_continuous_assignment(module, assignment);
        before = wire;
    }
}

fn build_nests(count: usize, depth: usize, file: &mut VastFile) {
    let module = file.add_module("nests");
    let bit = file.make_scalar_type();
    let go = file.add_input(module, "go", &bit).to_expr();
    let value = file.add_logic(module, "value", &bit).expect("a free name").to_expr();
    let always = file.add_always_comb(module).expect("an always block");
    let body = file.statement_block(always);
    for _ in 0..count {
        let mut block = body;
        for _ in 0..depth {
            let conditional = file.block_add_cond(block, &go);
            block = file.conditional_then_block(conditional);
        }
        file.block_add_blocking_assignment(block, &value, &go);
    }
}

fn build_sum(size: usize, file: &mut VastFile) {
    let module = file.add_module("sum");
    let byte = file.make_bit_vector_type(8, false);
    let term = file.add_input(module, "term", &byte).to_expr();
    let total = file.add_output(module, "total", &byte).to_expr();
    let mut sum = term;
    for _ in 0..size {
        sum = file.make_add(&sum, &term);
    }
    let assignment = file.make_continuous_assignment(&total, &sum);
    file.add_member_continuous_assignment(module, assignment);
}

fn build_cases(size: usize, file: &mut VastFile) {
    let module = file.add_module("cases");
    let word = file.make_bit_vector_type(32, false);
    let place = file.add_input(module, "place", &word).to_expr();
    let value = file.add_logic(module, "value", &word).expect("a free name").to_expr();
    let always = file.add_always_comb(module).expect("an always block");
    let body = file.statement_block(always);
    let case = file.block_add_case(body, &place);
    for i in 0..size {
        let text = format!("bits[32]:{i}");
        let label = file.make_literal(&text, &LiteralFormat::Hex).expect("a literal");
        let arm = file.case_add_item(case, &label);
        file.block_add_blocking_assignment(arm, &value, &place);
    }
}

fn build(design: &str, size: usize, file: &mut VastFile) {
    match design {
        "flat" => build_flat(size, file),
        "deep" => build_nests(1, size, file),
        "many-deep" => build_nests(1000, size, file),
        "sum" => build_sum(size, file),
        "cases" => build_cases(size, file),
        _ => panic!("unknown design"),
    }
}

fn measure(design: &str, size: usize, times: &str) {
    let mut file = VastFile::new(VastFileType::SystemVerilog);
    build(design, size, &mut file);
    if times == "text" {
        print!("{}", file.emit());
        return;
    }
    let times: usize = times.parse().expect("a number of times");
    let mut length = 0;
    for _ in 0..times {
        length = file.emit().len();
    }
    println!("{design} {size}: {length} bytes, {times} times");
}

fn main() {
    let words: Vec<String> = env::args().skip(1).collect();
    let work = move || {
        for three in words.chunks(3) {
            measure(&three[0], three[1].parse().expect("a size"), &three[2]);
        }
    };
    let thread = thread::Builder::new().stack_size(STACK).spawn(work).expect("a thread");
    thread.join().expect("the designs");
}
