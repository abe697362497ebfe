//! Compares the proved programs `curve_calls`, `text_calls` and `write_calls` with the plain implementation in this package: it makes
//! inputs, feeds them to the programs through pipes, works out what they have to print, and compares byte for byte.
//!
//! To see that it finds faults, build it wrong on purpose: `cargo build --release --offline --features wrong`. Then a deferrable
//! server's budget left at a refill is added to the new one (`machine.rs`), a leading zero is refused before a byte that is no digit
//! (`reading.rs`), time to provide pushes an exact fit into the next window (`curves.rs`), and a table's text that just fits is
//! refused (`writing.rs`); differences in all three programs have to come within seconds. `./compare --wrong` in the repository's
//! root does this. `--help` lists the options.

mod call;
mod comparing;
mod curve_call;
mod curve_inputs;
mod damage;
mod dice;
mod long_input;
mod options;
mod programs;
mod table_families;
mod table_inputs;
mod text_call;
mod write_call;
mod write_inputs;

use call::Call;
use comparing::{compare, line_of, Difference, Maker, Outcome};
use options::{Options, HELP};
use std::process::ExitCode;

fn main() -> ExitCode {
    if std::env::args_os().skip(1).take_while(|word| word != "--").any(|word| word == "--help") {
        print!("{HELP}");
        return ExitCode::SUCCESS;
    }
    match Options::read(std::env::args_os().skip(1)).and_then(|options| run(&options)) {
        Ok(0) => ExitCode::SUCCESS,
        Ok(_) => ExitCode::from(1),
        Err(words) => {
            eprintln!("compare: {words}");
            ExitCode::from(2)
        }
    }
}

/// Does the whole comparison and gives the number of differences.
fn run(options: &Options) -> Result<usize, String> {
    println!("seed {}", options.seed);
    let mut found = 0;
    if options.curves() > 0 {
        found += run_program(options, &curve_makers(options), found)?;
    }
    if options.tables() > 0 {
        found += run_program(options, &table_makers(options), found)?;
    }
    if options.writes() > 0 {
        found += run_program(options, &write_makers(options), found)?;
    }
    match found {
        0 => println!("no difference"),
        _ => println!("differences: {found}"),
    }
    Ok(found)
}

fn curve_makers(options: &Options) -> Vec<Maker<curve_call::CurveCall>> {
    let ticks = if options.short { 5 } else { 8 };
    let mut makers = curve_inputs::systematic(ticks);
    makers.extend(curve_inputs::random(options.seed, options.curves()));
    makers
}

fn table_makers(options: &Options) -> Vec<Maker<text_call::TextCall>> {
    let step = if options.short { 20 } else { 1 };
    let mut makers = table_inputs::systematic(options.seed, step);
    makers.extend(table_inputs::random(options.seed, options.tables()));
    makers
}

fn write_makers(options: &Options) -> Vec<Maker<write_call::WriteCall>> {
    let step = if options.short { 10 } else { 1 };
    let mut makers = write_inputs::systematic(options.seed, step);
    makers.extend(write_inputs::random(options.seed, options.writes()));
    makers
}

/// Compares one program and shows what came of it; `before` differences have been found in others.
fn run_program<C: Call>(options: &Options, makers: &[Maker<C>], before: usize) -> Result<usize, String> {
    let outcome = compare(&options.programs, makers, options.jobs, options.most);
    if let Some(trouble) = &outcome.trouble {
        return Err(format!("{}: {trouble}", C::PROGRAM));
    }
    show_counts(&outcome);
    for (index, difference) in outcome.found.iter().enumerate() {
        show_difference(options, before + index + 1, difference)?;
    }
    match outcome.found.len() {
        0 => run_long(options, makers),
        found => Ok(found),
    }
}

/// Compares one long input, and gives the number of differences: 0 or 1.
fn run_long<C: Call>(options: &Options, makers: &[Maker<C>]) -> Result<usize, String> {
    let long = long_input::run(&options.programs, makers).map_err(|trouble| format!("{}: {trouble}", C::PROGRAM))?;
    println!("  one input of {} bytes with a line that is too long: {} bytes printed", long.input.len(), long.printed.len());
    let Some(same) = long.difference() else { return Ok(0) };
    println!("difference: {}, the long input, behind {same} bytes that are as expected", C::PROGRAM);
    show("expected", &long.expected[same..]);
    show("printed by the program", &long.printed[same..]);
    Ok(1)
}

/// For each kind of call how many were accepted and how many were refused on each ground.
fn show_counts<C: Call>(outcome: &Outcome<C>) {
    println!("{}: {} calls compared", C::PROGRAM, outcome.counts.iter().flatten().sum::<u64>());
    for (kind, counts) in C::KINDS.iter().zip(&outcome.counts) {
        let refused = (1..counts.len()).filter(|&ground| counts[ground] > 0);
        let refused: Vec<String> = refused.map(|ground| format!("{ground}: {}", counts[ground])).collect();
        println!("  {kind}: {}, accepted {}, refused ({})", counts.iter().sum::<u64>(), counts[0], refused.join(", "));
    }
}

fn show_difference<C: Call>(options: &Options, number: usize, difference: &Difference<C>) -> Result<(), String> {
    println!("difference {number}: {}, {}", C::PROGRAM, C::KINDS[difference.call.kind()]);
    if difference.times > 1 {
        println!("{} calls were shrunk to this one", difference.times);
    }
    if !difference.alone {
        println!("only after the calls before it in its batch; not shrunk");
    }
    show("the call", &line_of(&difference.call));
    if let Some(text) = difference.call.text() {
        show("its text", text);
        let path = options.found.join(format!("found-{}-{number}.txt", options.seed));
        std::fs::write(&path, text).map_err(|trouble| format!("{}: {trouble}", path.display()))?;
        println!("stored as {}", path.display());
    }
    show("expected", &difference.expected);
    show("printed by the program", &difference.printed);
    println!("the program's end: {}", difference.ending);
    Ok(())
}

/// Shows bytes, tabs and other unusual ones escaped, each line of them on a line.
fn show(what: &str, bytes: &[u8]) {
    const MOST: usize = 1500;
    println!("{what}:");
    let cut = &bytes[..bytes.len().min(MOST)];
    for line in cut.split_inclusive(|&byte| byte == b'\n') {
        println!("    {}", line.escape_ascii());
    }
    if bytes.len() > MOST {
        println!("    .. ({} bytes)", bytes.len());
    }
}
