//! The table and the growth series as text, and the machine that they were made on.
use super::inputs::{IN_TURN, LISTENERS, Line, OrderLine, TERMS, lines, order_lines};
use super::withdraw::{MeasuredRun, MeasuredSet, RUN, measure_run, measure_set};
use super::{Measured, MeasuredConversion, MeasuredOrder, MeasuredPair, ROUNDS};
use super::{keep_memory, measure, measure_conversion, measure_order, measure_pair};
use crate::compare::has_library;

/// The lines whose growth is measured if none are named.
const GROWTH: &[Line] = &[
    Line { column: "full", order: "stacked" },
    Line { column: "opt", order: "stacked" },
    Line { column: "multi", order: "stacked" },
    Line { column: "full", order: "shuffled" },
    Line { column: "multi", order: "interleaved" },
    Line { column: "str", order: "interleaved-alive" },
];

/// The lines whose growth with the number of segments is measured if none are named.
const BY_SEGMENTS: &[Line] =
    &[Line { column: TERMS, order: "stacked" }, Line { column: TERMS, order: "interleaved-alive" }];

/// As many as a call takes.
const MOST_SEGMENTS: usize = 256;

/// Prints the tables of the lines that have `word` in their name. False if checksums differ.
pub fn table(segs: usize, rows: u32, word: &str) -> Result<bool, String> {
    let (lines, orders) = (lines(word), order_lines(word));
    let (converter, pairs) = (CONVERTER.contains(word), PAIRS.contains(word));
    let withdraw = WITHDRAW.contains(word);
    if lines.is_empty() && orders.is_empty() && !converter && !pairs && !withdraw {
        return Err("no line has that word in its name".into());
    }
    begin()?;
    println!("{}", machine());
    let (terms, plain): (Vec<Line>, Vec<Line>) = lines.into_iter().partition(|line| line.column == TERMS);
    let mut all_equal = true;
    if !plain.is_empty() {
        all_equal &= joins(&plain, segs, rows);
    }
    if !terms.is_empty() {
        all_equal &= joins(&terms, MOST_SEGMENTS, rows);
    }
    if !orders.is_empty() {
        all_equal &= time_orders(&orders, segs, rows);
    }
    if converter {
        all_equal &= conversions((segs as u32).saturating_mul(rows));
    }
    if pairs {
        all_equal &= least_and_greatest((segs as u32).saturating_mul(rows));
    }
    if withdraw {
        all_equal &= sets((segs as u32).saturating_mul(rows)) & runs(rows);
    }
    Ok(all_equal)
}

fn joins(lines: &[Line], segs: usize, rows: u32) -> bool {
    print_head(segs, lines[0].rows(rows));
    let (mut met, mut equal) = (0, 0);
    for &line in lines {
        let m = measure(line, segs, line.rows(rows));
        let missed = missed(&m);
        met += missed.is_none() as usize;
        equal += (m.sums[0] == m.sums[1]) as usize;
        println!("{}", table_row(&m, missed.as_deref()));
        progress(&m);
    }
    println!("\nTargets met on {met} of {} lines; checksums equal on {equal}.", lines.len());
    equal == lines.len()
}

fn time_orders(lines: &[OrderLine], segs: usize, rows: u32) -> bool {
    println!(
        "\nThe time order: {segs} segments of {} rows, one after the other in time or overlapping, beside \
         `sort_unstable` of (key, segment, row), alone and with the making of that list and of the addresses. \
         Times in ns per alive row, processor time, least of {ROUNDS} rounds.\n",
        grouped(rows as usize)
    );
    println!(
        "| Segments | Rows | Alive rows | Ours | Sort alone | Sort / ours | Whole by sort | Whole / ours | Target met | Checksum of both |"
    );
    println!("|---|---|--:|--:|--:|--:|--:|--:|---|---|");
    let (mut met, mut equal) = (0, 0);
    for &line in lines {
        let m = measure_order(line, segs, rows);
        met += order_missed(&m).is_none() as usize;
        equal += (m.sums[0] == m.sums[1]) as usize;
        print_order(&m);
    }
    println!("\nTargets met on {met} of {} lines; checksums equal on {equal}.", lines.len());
    equal == lines.len()
}

fn print_order(m: &MeasuredOrder) {
    let (ours, sort, whole) = (digits(m.ours), digits(m.sort), digits(m.whole));
    println!(
        "| {} | {} | {} | {ours} | {sort} | {} | {whole} | {} | {} | {} |",
        m.line.times,
        m.line.rows,
        grouped(m.rows),
        digits(m.sort / m.ours),
        digits(m.whole / m.ours),
        order_missed(m).map_or("yes".to_string(), |text| format!("**no**: {text}")),
        sum(m.sums)
    );
    let equal = if m.sums[0] == m.sums[1] { "" } else { ", CHECKSUMS DIFFER" };
    eprintln!(
        "{:<38} {:>10} rows: ours {ours:>8}, sort {sort:>8}, whole by sort {whole:>8} ns per row{equal}",
        m.line.name(),
        m.rows
    );
}

/// The target that a line misses: overlapping, at least as fast as the sort alone; in turn, at least
/// twice as fast as the whole by sort, since a list that is in order already costs the sort one look.
fn order_missed(m: &MeasuredOrder) -> Option<&'static str> {
    match m.line.times {
        IN_TURN if m.whole < 2.0 * m.ours => Some("below 2 times the whole by sort"),
        IN_TURN => None,
        _ if m.sort < m.ours => Some("slower than the sort alone"),
        _ => None,
    }
}

/// The converter's name where lines are named.
const CONVERTER: &str = "converter";

/// The types that are converted: one whose values are read for the pair, and one whose are not.
const CONVERTED: [(u32, &str); 2] = [(7, "DateTime"), (1, "U64")];

fn conversions(rows: u32) -> bool {
    println!(
        "\nThe converter: one segment of kind 3, 0 to 3 values in a row, beside a plain copy of its offsets, and of \
         its values where they are read for the pair. Times in ns per row, processor time, least of {ROUNDS} \
         rounds.\n"
    );
    println!(
        "| Type | Rows | With a value | Values | Ours | Plain copy | Ours / copy | Target met | Checksum of ours and of the model |"
    );
    println!("|---|--:|--:|--:|--:|--:|--:|---|---|");
    CONVERTED.into_iter().map(|(ty, name)| conversion(ty, name, rows)).fold(true, |all, equal| all & equal)
}

/// The target: within three times the plain copy.
fn conversion(ty: u32, name: &str, rows: u32) -> bool {
    let MeasuredConversion { rows, ids, values, ours, copy, sums } = measure_conversion(ty, rows);
    println!(
        "| {name} | {} | {} | {} | {} | {} | {} | {} | {} |",
        grouped(rows),
        grouped(ids),
        grouped(values),
        digits(ours),
        digits(copy),
        digits(ours / copy),
        if ours > 3.0 * copy { "**no**: above 3 plain copies" } else { "yes" },
        sum(sums)
    );
    let equal = if sums[0] == sums[1] { "" } else { ", CHECKSUMS DIFFER" };
    let (ours, copy) = (digits(ours), digits(copy));
    let line = format!("{CONVERTER} {name}");
    eprintln!("{line:<28} {rows:>10} rows: ours {ours:>8}, copy {copy:>8} ns per row{equal}");
    sums[0] == sums[1]
}

/// The name of a column's least and greatest value where lines are named.
const PAIRS: &str = "least and greatest";

fn least_and_greatest(rows: u32) -> bool {
    println!(
        "\nThe least and the greatest value of a column, asked for, as check 5 finds them: beside a search in plain \
         Rust, and a plain copy of the values. Times in ns per value, processor time, least of {ROUNDS} rounds.\n"
    );
    println!("| Type | Values | Ours | Plain search | Plain / ours | Plain copy | Ours / copy | Same pair |");
    println!("|---|--:|--:|--:|--:|--:|--:|---|");
    let both = [(0, "I64"), (1, "U64")];
    both.into_iter()
        .map(|(ty, name)| print_pair(name, measure_pair(ty, rows)))
        .fold(true, |all, same| all & same)
}

fn print_pair(name: &str, m: MeasuredPair) -> bool {
    let (ours, plain, copy) = (digits(m.ours), digits(m.plain), digits(m.copy));
    println!(
        "| {name} | {} | {ours} | {plain} | {} | {copy} | {} | {} |",
        grouped(m.values),
        digits(m.plain / m.ours),
        digits(m.ours / m.copy),
        if m.same { "yes" } else { "**no**" }
    );
    let line = format!("{PAIRS}, {name}");
    let same = if m.same { "" } else { ", PAIRS DIFFER" };
    eprintln!(
        "{line:<28} {:>10} values: ours {ours:>8}, plain {plain:>8}, copy {copy:>8} ns per value{same}",
        m.values
    );
    m.same
}

/// The name of withdraw and reinstate where lines are named.
const WITHDRAW: &str = "withdraw and reinstate";

/// Sets of up to so many rows.
fn sets(most: u32) -> bool {
    println!(
        "\nWithdraw and reinstate: alive sets with a tenth of the rows withdrawn. One row: a call that changes \
         it, and one that is refused with 15, which has every test before that; beside them a plain count of the \
         set bits. A run: {} random rows in one call; that without what a run of no rows takes; the same change \
         in plain Rust, without a test. Processor time, least of {ROUNDS} rounds.\n",
        grouped(RUN)
    );
    println!(
        "| Rows | Alive words | One row, ns | Refused, ns | Plain count, ns | One row / count | Run of no rows, ns | Run, ns a row | Less a run of no rows, ns a row | Plain, ns a row | Checksum of both |"
    );
    println!("|--:|--:|--:|--:|--:|--:|--:|--:|--:|--:|---|");
    let sizes = [1_000, 100_000, 1_000_000, 10_000_000];
    // All of them are run.
    sizes
        .into_iter()
        .filter(|&rows| rows <= most)
        .map(measure_set)
        .fold(true, |equal, m| print_set(&m) & equal)
}

fn print_set(m: &MeasuredSet) -> bool {
    println!(
        "| {} | {} | {} | {} | {} | {} | {} | {} | {} | {} | {} |",
        grouped(m.rows as usize),
        grouped(m.words),
        digits(m.one),
        digits(m.refused),
        digits(m.count),
        digits(m.one / m.count),
        digits(m.none),
        digits(m.run.per_row(m.run.ours)),
        digits(m.run.per_row(m.run.ours - m.none)),
        digits(m.run.per_row(m.run.plain)),
        sum(m.run.sums)
    );
    let (one, count) = (digits(m.one), digits(m.count));
    eprintln!("{WITHDRAW:<28} {:>10} rows: one row {one:>8}, count {count:>8} ns", m.rows);
    print_progress(&m.run)
}

/// Runs of more and more rows in one set.
fn runs(rows: u32) -> bool {
    println!(
        "\nRuns of random rows in an alive set of {} rows, one call each. Times in ns a row.\n",
        grouped(rows as usize)
    );
    println!("| Rows named | Ours | Plain | Ours / plain | Checksum of both |");
    println!("|--:|--:|--:|--:|---|");
    let sizes = (0..).map(|i| 10usize.pow(i)).take_while(|&named| named <= rows as usize);
    sizes.map(|named| measure_run(rows, named)).fold(true, |equal, m| print_run(&m) & equal)
}

fn print_run(m: &MeasuredRun) -> bool {
    println!(
        "| {} | {} | {} | {} | {} |",
        grouped(m.named),
        digits(m.per_row(m.ours)),
        digits(m.per_row(m.plain)),
        digits(m.ours / m.plain),
        sum(m.sums)
    );
    print_progress(m)
}

fn print_progress(m: &MeasuredRun) -> bool {
    let equal = if m.sums[0] == m.sums[1] { "" } else { ", CHECKSUMS DIFFER" };
    let (ours, plain) = (digits(m.per_row(m.ours)), digits(m.per_row(m.plain)));
    let name = format!("run of {}", m.named);
    eprintln!("{name:<28} {:>10} rows: ours {ours:>8}, plain {plain:>8} ns per row{equal}", m.rows);
    m.sums[0] == m.sums[1]
}

fn print_head(segs: usize, rows: u32) {
    println!(
        "\n{segs} segments of {} rows. Times in ns per joined row, processor time, least of {ROUNDS} rounds.\n",
        grouped(rows as usize)
    );
    println!(
        "| Column | Order | Joined rows | Values | Crate | Ours | Crate / ours | Plain copy | Ours / copy | Target met | Checksum of both |"
    );
    println!("|---|---|--:|--:|--:|--:|--:|--:|--:|---|---|");
}

fn table_row(m: &Measured, missed: Option<&str>) -> String {
    format!(
        "| {} | {} | {} | {} | {} | {} | {} | {} | {} | {} | {} |",
        m.line.column,
        m.line.order,
        grouped(m.rows),
        grouped(m.values),
        digits(m.theirs),
        digits(m.ours),
        digits(m.theirs / m.ours),
        digits(m.copy),
        digits(m.ours / m.copy),
        missed.map_or("yes".to_string(), |text| format!("**no**: {text}")),
        sum(m.sums)
    )
}

fn sum(sums: [u64; 2]) -> String {
    if sums[0] == sums[1] { format!("{:016x}", sums[0]) } else { "DIFFER".to_string() }
}

/// The target that a line misses: at least as fast as the crate; at least four times as fast on
/// stacked Full, Optional and multivalued, three times on Str; stacked Full and stacked addresses within two
/// and a half times a plain copy.
fn missed(m: &Measured) -> Option<String> {
    let stacked = m.line.order == "stacked";
    let plain = matches!(m.line.column, "full" | "opt" | "optsparse" | "multi");
    let wanted = match m.line.column {
        "str" => 3.0,
        _ if stacked && plain => 4.0,
        _ => 1.0,
    };
    if m.theirs < m.ours {
        return Some("slower than the crate".to_string());
    }
    if m.theirs < wanted * m.ours {
        return Some(format!("below {wanted} times the crate"));
    }
    let copies = match m.line.column {
        "full" | LISTENERS if stacked => 2.5,
        _ => return None,
    };
    (m.ours > copies * m.copy).then(|| format!("above {copies} plain copies"))
}

/// Prints, as comma-separated values, the times at sizes that grow by half powers of ten from 1,000
/// rows a segment to `most`. Time order and converter have no lines here. False if checksums differ.
pub fn growth(segs: usize, most: u32, word: &str) -> Result<bool, String> {
    let lines = if word.is_empty() { GROWTH.to_vec() } else { lines(word) };
    begin()?;
    print_points("joined_rows");
    let mut equal = true;
    for line in lines {
        for rows in sizes(most) {
            let m = measure(line, segs, line.rows(rows));
            equal &= point(&m, m.rows);
        }
    }
    Ok(equal)
}

/// The same at numbers of segments that double, up to 256, of a hundredth of the rows.
pub fn segments(most: usize, rows: u32, word: &str) -> Result<bool, String> {
    let lines = if word.is_empty() { BY_SEGMENTS.to_vec() } else { lines(word) };
    begin()?;
    print_points("segments");
    let mut equal = true;
    for line in lines {
        for segs in (0..).map(|i| 1 << i).take_while(|&segs| segs <= most.min(MOST_SEGMENTS)) {
            let m = measure(line, segs, rows.div_ceil(100));
            equal &= point(&m, segs);
        }
    }
    Ok(equal)
}

fn print_points(by: &str) {
    println!("column,order,{by},crate_ns_per_row,ours_ns_per_row,copy_ns_per_row");
}

/// Prints a point of a series. False if checksums differ.
fn point(m: &Measured, at: usize) -> bool {
    let Line { column, order } = m.line;
    println!("{column},{order},{at},{:.5},{:.5},{:.5}", m.theirs, m.ours, m.copy);
    progress(m);
    m.sums[0] == m.sums[1]
}

fn sizes(most: u32) -> impl Iterator<Item = u32> {
    (0..).map(|i| 10f64.powf(3.0 + i as f64 / 2.0).round() as u32).take_while(move |&rows| rows <= most)
}

fn begin() -> Result<(), String> {
    if !has_library() {
        return Err("built without the library: set JADMIRUS_LIB to its path when building".into());
    }
    keep_memory();
    Ok(())
}

fn progress(m: &Measured) {
    let equal = if m.sums[0] == m.sums[1] { "" } else { ", CHECKSUMS DIFFER" };
    eprintln!(
        "{:<28} {:>10} rows: crate {:>8}, ours {:>8}, copy {:>8} ns per row{equal}",
        m.line.name(),
        m.rows,
        digits(m.theirs),
        digits(m.ours),
        digits(m.copy)
    );
}

/// At least three digits that count.
fn digits(x: f64) -> String {
    let places = match x {
        x if x < 0.1 => 4,
        x if x < 1.0 => 3,
        x if x < 10.0 => 2,
        x if x < 100.0 => 1,
        _ => 0,
    };
    format!("{x:.places$}")
}

/// 1234567 as 1,234,567.
fn grouped(n: usize) -> String {
    let digits = n.to_string();
    let mut text = String::new();
    for (i, digit) in digits.chars().enumerate() {
        if i > 0 && (digits.len() - i).is_multiple_of(3) {
            text.push(',');
        }
        text.push(digit);
    }
    text
}

/// Processor, its number of cores and largest cache, and the compiler of the crate.
fn machine() -> String {
    let info = std::fs::read_to_string("/proc/cpuinfo").unwrap_or_default();
    let field = |name: &str| {
        let line = info.lines().find(|l| l.starts_with(name))?;
        Some(line.split_once(':')?.1.trim().to_string())
    };
    let model = field("model name").unwrap_or("processor unknown".into());
    let cores = std::thread::available_parallelism().map_or(1, |n| n.get());
    let cache = field("cache size").map_or(String::new(), |size| format!(", cache {size}"));
    let rustc = std::process::Command::new("rustc").arg("--version").output();
    let rustc = rustc.map_or(String::new(), |o| String::from_utf8_lossy(&o.stdout).trim().to_string());
    format!(
        "{model}, {cores} cores{cache}; {} {}; crate built by {rustc}",
        std::env::consts::OS,
        std::env::consts::ARCH
    )
}
