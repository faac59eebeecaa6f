mod bench;
mod cases;
mod compare;
mod convert;
mod damage;
mod generate;
#[cfg(library)]
mod library;
mod model;
mod order;
mod ours;
mod rng;
mod run;
mod sample;
mod slips;
mod table;
mod wire;
mod withdraw;

use std::io::{Read, Write};
use std::path::PathBuf;
use std::process::ExitCode;

use compare::{Options, Ours};
use run::Raw;
use wire::Sections;

const USAGE: &str = "\
oracle compare SEED COUNT [--library | --program PATH | --model | --slips] [--withdraw] [--from CASE] [--jobs N]
                             the joiner against the crate and the table (see oracle/compare)
oracle crate                 one input on stdin; the listing, made by the crate's merge
oracle model                 the same by the documents' rules alone, as the joining program does
oracle sample SEED COUNT IN OUT
                             the stored sample of inputs and listings (see oracle/sample)
oracle raw                   what the crate itself writes: every category's column, or its error
oracle wire MODE REQUIRED [TYPE/KIND/ROWS[/ids=..][/off=..][/val=..][/terms=..][/alive=..][/count=N]].. [addr=S:R,..]
                             an input in wire form on stdout; an address is val=HIGH:LOW, count is a wrong
                             number of alive rows
oracle bench SEGMENTS ROWS [WORD]
                             times of the crate's merge and of the joiner, a table (see bench/run)
oracle growth SEGMENTS ROWS [WORD]
                             the same at growing sizes, from 1,000 rows a segment to ROWS
oracle segments SEGMENTS ROWS [WORD]
                             the same with growing numbers of segments, from 1 to SEGMENTS, of ROWS / 100
oracle plot                  what growth or segments printed, on stdin; a picture of it, SVG";

fn main() -> ExitCode {
    let args: Vec<String> = std::env::args().skip(1).collect();
    // A panic of the crate is told as what the crate does, unless its place is asked for.
    std::panic::set_hook(Box::new(|info| {
        if !run::catching() || std::env::var_os("ORACLE_PANICS").is_some() {
            eprintln!("{info}");
        }
    }));
    match run(&args) {
        Ok(true) => ExitCode::SUCCESS,
        Ok(false) => ExitCode::from(1),
        Err(text) => {
            eprintln!("{text}");
            ExitCode::from(2)
        }
    }
}

fn run(args: &[String]) -> Result<bool, String> {
    let words: Vec<&str> = args.iter().map(|a| a.as_str()).collect();
    match words[..] {
        ["compare", ..] => return compare_command(&words[1..]),
        ["crate"] => print(compare::listing(&read()?)?.as_bytes()),
        ["model"] => print(table::program(&stdin()).print().as_bytes()),
        ["raw"] => match run::merge(&read()?.cut()) {
            Raw::Panic(text) => println!("panic: {text}"),
            Raw::Error(text) => println!("error: {text}"),
            Raw::Columns(listings, _) => listings.iter().for_each(|l| print(l.print().as_bytes())),
        },
        ["sample", seed, count, inputs, listings] => {
            let seed = seed.parse().map_err(|_| USAGE)?;
            let (input_file, listing_file) = sample::sample(seed, count.parse().map_err(|_| USAGE)?)?;
            std::fs::write(inputs, input_file).map_err(|e| format!("{inputs}: {e}"))?;
            std::fs::write(listings, listing_file).map_err(|e| format!("{listings}: {e}"))?;
        }
        [what @ ("bench" | "growth" | "segments"), segs, rows, ref word @ ..] => {
            let report = match what {
                "bench" => bench::table,
                "growth" => bench::growth,
                _ => bench::segments,
            };
            let (segs, rows) = (segs.parse().map_err(|_| USAGE)?, rows.parse().map_err(|_| USAGE)?);
            return report(segs, rows, word.first().copied().unwrap_or(""));
        }
        ["plot"] => print(bench::plot(&String::from_utf8_lossy(&stdin()))?.as_bytes()),
        ["wire", ..] => print(&wire::from_words(&args[1..])?.sections().encode()),
        _ => return Err(USAGE.into()),
    }
    Ok(true)
}

fn compare_command(words: &[&str]) -> Result<bool, String> {
    fn number(text: Option<&&str>) -> Result<u64, String> {
        text.and_then(|t| t.parse().ok()).ok_or_else(|| USAGE.into())
    }
    let (seed, count) = (number(words.first())?, number(words.get(1))?);
    let mut o = Options { seed, from: 0, count, jobs: 1, withdraw: false };
    if o.count == 0 {
        return Err("no cases".into());
    }
    let (mut ours, mut slips) = (Ours::Library, false);
    let mut rest = words[2..].iter();
    while let Some(word) = rest.next() {
        match *word {
            "--library" => ours = Ours::Library,
            "--program" => ours = Ours::Program(PathBuf::from(rest.next().ok_or(USAGE)?)),
            "--model" => ours = Ours::Model,
            "--slips" => slips = true,
            "--withdraw" => o.withdraw = true,
            "--from" => o.from = number(rest.next())?,
            "--jobs" => o.jobs = number(rest.next())?.clamp(1, 64),
            _ => return Err(USAGE.into()),
        }
    }
    if slips {
        return Ok(compare::find_slips(&o));
    }
    if o.withdraw && matches!(ours, Ours::Program(_)) {
        return Err("the joining program has no withdraw and no reinstate".into());
    }
    if matches!(ours, Ours::Library) && !compare::has_library() {
        return Err("built without the library: set JADMIRUS_LIB to its path when building".into());
    }
    Ok(compare::compare(&o, &ours))
}

fn print(bytes: &[u8]) {
    std::io::stdout().lock().write_all(bytes).unwrap();
}

fn stdin() -> Vec<u8> {
    let mut bytes = Vec::new();
    std::io::stdin().lock().read_to_end(&mut bytes).unwrap();
    bytes
}

/// An input of any length whose sections are as the records say.
fn read() -> Result<Sections, String> {
    let sections = Sections::decode(&stdin())?;
    let call = table::Call::new(&sections, table::Lent::default());
    match table::section_lengths(&call) {
        true => Err("section lengths differ from the records' sums".into()),
        false => Ok(sections),
    }
}
