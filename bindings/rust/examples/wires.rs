//! How long a module of so many wires takes, each with its assignment: `cargo run --release --example wires -- 100000`.
//! It compiles unchanged against the original too. `bench.rs` beside it measures more.

use std::env;
use std::time::Instant;
use xlsynth_vast::{VastFile, VastFileType};

fn main() {
    let count = match env::args().nth(1).map(|word| word.parse()) {
        Some(Ok(count)) => count,
        _ => 100_000,
    };
    let start = Instant::now();
    let file = wires(count);
    let built = start.elapsed();
    let start = Instant::now();
    let text = file.emit();
    let printed = start.elapsed();
    let milliseconds = |time: std::time::Duration| time.as_secs_f64() * 1000.0;
    println!(
        "{count} wires, {} bytes: built in {:.1} ms, printed in {:.1} ms",
        text.len(),
        milliseconds(built),
        milliseconds(printed)
    );
}

/// A module in which each wire follows the one before.
fn wires(count: usize) -> VastFile {
    let mut file = VastFile::new(VastFileType::SystemVerilog);
    let module = file.add_module("wires");
    let byte = file.make_bit_vector_type(8, false);
    let mut last = file.add_input(module, "first", &byte).to_expr();
    for number in 0..count {
        let wire = file.add_wire(module, &format!("wire_{number}"), &byte);
        let wire = wire.to_expr();
        let assignment = file.make_continuous_assignment(&wire, &last);
        file.add_member_continuous_assignment(module, assignment);
        last = wire;
    }
    // Calls that wait are made before a question.
    file.module_member_count(module);
    file
}
