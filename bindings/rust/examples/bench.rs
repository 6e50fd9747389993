//! How long designs that grow take to be built and to be printed: `cargo run --release --example bench`.
//!
//! A row is a design of one size: the bytes of its text, and the milliseconds of processor time of building it and of printing
//! it once, the least of some runs. `-- --beside PROGRAM` runs another build of this source in turn, that of the original,
//! against which it compiles unchanged, and adds how many times as long that takes, by the median of the turns, and the
//! memory of both in megabytes. `-- flat 1000` makes one run of one size, which is what is run in turn.

use std::env;
use std::error::Error;
use std::fs;
use std::path::{Path, PathBuf};
use std::process::Command;
use std::thread;
use xlsynth_vast::{LiteralFormat, VastFile, VastFileType, VastModule};

/// The original prints an expression by recursion.
const STACK: usize = 8 << 30;

/// Turns of each design of one size.
const TURNS: usize = 9;

type Fallible<T> = Result<T, Box<dyn Error>>;

/// Builds a design of this size, which is one module.
type Build = fn(usize, &mut VastFile) -> VastModule;

const DESIGNS: [(&str, Build, &[usize]); 4] = [
    ("flat", build_flat, &[1_000, 10_000, 100_000, 1_000_000]),
    ("nests", build_nests, &[10, 100]),
    ("sum", build_sum, &[1_000, 10_000, 100_000]),
    ("cases", build_cases, &[1_000, 10_000, 100_000]),
];

/// Wires, each of which follows the one before.
fn build_flat(size: usize, file: &mut VastFile) -> VastModule {
    let module = file.add_module("flat");
    let byte = file.make_bit_vector_type(8, false);
    let mut last = file.add_input(module, "data", &byte).to_expr();
    for number in 0..size {
        let wire = file.add_wire(module, &format!("wire_{number}"), &byte);
        let wire = wire.to_expr();
        let assignment = file.make_continuous_assignment(&wire, &last);
        file.add_member_continuous_assignment(module, assignment);
        last = wire;
    }
    module
}

/// A thousand nests of conditionals of this depth.
fn build_nests(depth: usize, file: &mut VastFile) -> VastModule {
    let module = file.add_module("nests");
    let bit = file.make_scalar_type();
    let go = file.add_input(module, "go", &bit).to_expr();
    let value = file.add_output(module, "value", &bit).to_expr();
    let always = file.add_always_comb(module).expect("an always block");
    let body = file.statement_block(always);
    for _ in 0..1000 {
        let innermost = (0..depth).fold(body, |block, _| {
            let conditional = file.block_add_cond(block, &go);
            file.conditional_then_block(conditional)
        });
        file.block_add_blocking_assignment(innermost, &value, &go);
    }
    module
}

/// A sum of so many terms.
fn build_sum(size: usize, file: &mut VastFile) -> VastModule {
    let module = file.add_module("sum");
    let byte = file.make_bit_vector_type(8, false);
    let term = file.add_input(module, "term", &byte).to_expr();
    let total = file.add_output(module, "total", &byte).to_expr();
    let sum = (0..size).fold(term, |sum, _| file.make_add(&sum, &term));
    let assignment = file.make_continuous_assignment(&total, &sum);
    file.add_member_continuous_assignment(module, assignment);
    module
}

/// A case of so many arms.
fn build_cases(size: usize, file: &mut VastFile) -> VastModule {
    let module = file.add_module("cases");
    let word = file.make_bit_vector_type(32, false);
    let place = file.add_input(module, "place", &word).to_expr();
    let value = file.add_output(module, "value", &word).to_expr();
    let always = file.add_always_comb(module).expect("an always block");
    let body = file.statement_block(always);
    let case = file.block_add_case(body, &place);
    for number in 0..size {
        let text = format!("bits[32]:{number}");
        let label = file
            .make_literal(&text, &LiteralFormat::Hex)
            .expect("a literal");
        let arm = file.case_add_item(case, &label);
        file.block_add_blocking_assignment(arm, &value, &place);
    }
    module
}

/// One run: bytes of the text, milliseconds of building and of printing, megabytes.
#[derive(Clone, Copy)]
struct Run {
    bytes: f64,
    built: f64,
    printed: f64,
    held: f64,
}

impl Run {
    /// Makes the run in this process.
    fn here(build: Build, size: usize) -> Fallible<Run> {
        let start = processor_time();
        let mut file = VastFile::new(VastFileType::SystemVerilog);
        let module = build(size, &mut file);
        // Calls that wait are made before a question.
        file.module_member_count(module);
        let built = processor_time();
        let text = file.emit();
        let printed = processor_time();
        Ok(Run {
            bytes: text.len() as f64,
            built: built - start,
            printed: printed - built,
            held: most_memory()?,
        })
    }

    /// Makes the run in a process of the program.
    fn by(program: &Path, design: &str, size: usize) -> Fallible<Run> {
        let made = Command::new(program)
            .args([design, &size.to_string()])
            .output()?;
        let said = String::from_utf8(made.stdout)?;
        let numbers: Result<Vec<f64>, _> = said.split_whitespace().map(str::parse).collect();
        let [bytes, built, printed, held] = numbers?[..] else {
            return Err(format!("{} says {said:?}", program.display()).into());
        };
        Ok(Run {
            bytes,
            built,
            printed,
            held,
        })
    }
}

#[repr(C)]
#[derive(Default)]
struct Time {
    seconds: i64,
    nanoseconds: i64,
}

extern "C" {
    fn clock_gettime(clock: i32, time: &mut Time) -> i32;
}

/// The processor's time of this process, as Linux counts it.
const OF_THIS_PROCESS: i32 = 2;

/// Milliseconds of the processor that this process took so far.
fn processor_time() -> f64 {
    let mut time = Time::default();
    // SAFETY: the clock is one of Linux, whose `timespec` is two numbers of 64 bits.
    unsafe { clock_gettime(OF_THIS_PROCESS, &mut time) };
    time.seconds as f64 * 1e3 + time.nanoseconds as f64 / 1e6
}

/// The most megabytes that this process held.
fn most_memory() -> Fallible<f64> {
    let status = fs::read_to_string("/proc/self/status")?;
    let line = status.lines().find_map(|line| line.strip_prefix("VmHWM:"));
    let kilobytes: f64 = line
        .ok_or("no VmHWM")?
        .trim()
        .trim_end_matches(" kB")
        .parse()?;
    Ok(kilobytes / 1e3)
}

/// The middle one of some numbers.
fn median(mut numbers: Vec<f64>) -> f64 {
    numbers.sort_by(f64::total_cmp);
    numbers[numbers.len() / 2]
}

/// The least that the runs took.
fn least(runs: &[Run], what: fn(&Run) -> f64) -> f64 {
    runs.iter().map(what).fold(f64::INFINITY, f64::min)
}

/// Prints the row of a design of one size.
fn print_row(programs: &[PathBuf], design: &str, size: usize) -> Fallible<()> {
    let mut runs = vec![Vec::new(); programs.len()];
    for turn in 0..TURNS * programs.len() {
        let place = turn % programs.len();
        runs[place].push(Run::by(&programs[place], design, size)?);
    }
    let ours = &runs[0];
    let built = least(ours, |run| run.built);
    let printed = least(ours, |run| run.printed);
    print!(
        "{design:6}{size:>9}{:>10}{built:>10.2}{printed:>10.2}",
        ours[0].bytes
    );
    if let Some(theirs) = runs.get(1) {
        if theirs[0].bytes != ours[0].bytes {
            return Err(format!("{} bytes by the other program", theirs[0].bytes).into());
        }
        let ratio = |what: fn(&Run) -> f64| {
            median(
                theirs
                    .iter()
                    .zip(ours)
                    .map(|(one, other)| what(one) / what(other))
                    .collect(),
            )
        };
        let times = (ratio(|run| run.built), ratio(|run| run.printed));
        let held = (least(ours, |run| run.held), least(theirs, |run| run.held));
        print!(
            "{:>8.2}{:>8.2}{:>9.1}{:>9.1}",
            times.0, times.1, held.0, held.1
        );
    }
    println!();
    Ok(())
}

/// Prints all rows, of this program and, by turns, of the other.
fn print_table(other: Option<&str>) -> Fallible<()> {
    let mut programs = vec![env::current_exe()?];
    programs.extend(other.map(PathBuf::from));
    print!(
        "{:6}{:>9}{:>10}{:>10}{:>10}",
        "design", "size", "bytes", "build ms", "print ms"
    );
    println!(
        "{}",
        other.map_or("", |_| "   times   times       MB      its")
    );
    for (design, _, sizes) in DESIGNS {
        for size in sizes {
            print_row(&programs, design, *size)?;
        }
    }
    Ok(())
}

/// Does what the words say.
fn run(words: &[String]) -> Fallible<()> {
    let words: Vec<&str> = words.iter().map(String::as_str).collect();
    match words[..] {
        [] => print_table(None),
        ["--beside", program] => print_table(Some(program)),
        [design, size] => {
            let found = DESIGNS.iter().find(|(name, ..)| *name == design);
            let (_, build, _) = found.ok_or("no such design")?;
            let run = Run::here(*build, size.parse()?)?;
            println!("{} {} {} {}", run.bytes, run.built, run.printed, run.held);
            Ok(())
        }
        _ => Err("words: nothing, `--beside PROGRAM`, or a design and a size".into()),
    }
}

fn main() -> Fallible<()> {
    let words: Vec<String> = env::args().skip(1).collect();
    let work = move || run(&words).map_err(|error| error.to_string());
    let thread = thread::Builder::new().stack_size(STACK).spawn(work)?;
    thread.join().map_err(|_| "a run ended by a panic")??;
    Ok(())
}
