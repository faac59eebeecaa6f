//! The comparison: seeded inputs and damaged copies, each given to the joiner, whose answer and
//! memory are held to the crate's merge (accepted) and to the table (refused); stored segments of kind 3
//! given to the converter, which is held to its model, and then to the joiner, which is held to the
//! crate's merge of the segments before their conversion; segments of times given to the time order, which
//! is held to its model, and then to the joiner in the order found; records with their alive sets given
//! to withdraw and reinstate in turn, which are held to their model, and then to the joiner; and columns asked
//! for their least and greatest value.
mod listeners;
mod orders;
mod pairs;
mod turns;

use std::io::{Read, Write};
use std::path::{Path, PathBuf};
use std::process::{Command, Stdio};
use std::sync::atomic::{AtomicU64, Ordering};

use crate::convert::{self, Space};
use crate::damage;
use crate::generate::{self, Kinds, Shape, Types};
use crate::model;
use crate::order;
use crate::ours::{Addresses, Joiner, Lists, NewLists, Run};
use crate::rng::Rng;
use crate::run;
use crate::slips::{How, Standin, slips};
use crate::table::{self, CHECKS, Call, Lent, PROGRAM, PROGRAM_BYTES};
use crate::wire::{IP, Input, Listing, Outcome, Pair, Sections, Seg, to_words, values_of, width};
use crate::withdraw::{self, AliveSet, Mark};
use listeners::Listeners;
use orders::Orders;
use pairs::Pairs;
use turns::Turns;

pub enum Ours {
    Library,
    Program(PathBuf),
    Model,
}

pub struct Options {
    pub seed: u64,
    pub from: u64,
    pub count: u64,
    pub jobs: u64,
    /// Withdraw and reinstate alone.
    pub withdraw: bool,
}

const MOST_DIFFERENCES: u64 = 5;

/// One call, or several in turn: what is handed over and how much is lent.
pub enum Task {
    Join { sections: Sections, lent: Lent, source: Source },
    Convert { sections: Sections, space: Space },
    Order { sections: Sections, space: usize },
    Turn { set: AliveSet, marks: Vec<Mark> },
    Pair { ty: u32, words: Vec<u64> },
}

/// Where the segments and the row order of a join come from.
pub enum Source {
    /// From nothing else.
    Drawn,
    /// Converted from these: the crate joins those.
    Converted(Input),
    /// The row order is the segments' time order, which a join must take.
    Ordered,
    /// The alive sets are as withdraw and reinstate left them, which a join must take.
    Marked,
}

/// What must come of it.
pub enum Must {
    Join(Outcome),
    Convert(convert::Outcome),
    Order(order::Outcome),
    Turn(Vec<withdraw::Outcome>),
    Pair(Pair),
}

/// Which function is called.
#[derive(Clone, Copy, Debug, PartialEq, Eq)]
pub enum Part {
    Join,
    Convert,
    Order,
    Mark,
    Pair,
}

impl Task {
    fn join(sections: Sections, lent: Lent) -> Task {
        Task::Join { sections, lent, source: Source::Drawn }
    }
    pub fn part(&self) -> Part {
        match self {
            Task::Join { .. } => Part::Join,
            Task::Convert { .. } => Part::Convert,
            Task::Order { .. } => Part::Order,
            Task::Turn { .. } => Part::Mark,
            Task::Pair { .. } => Part::Pair,
        }
    }
    fn must(&self) -> Result<Must, String> {
        Ok(match self {
            Task::Join { sections, lent, source } => {
                Must::Join(source.expected(&Call::new(sections, *lent))?)
            }
            Task::Convert { sections, space } => {
                Must::Convert(convert::outcome(&convert::Call { sections, space: *space }))
            }
            Task::Order { sections, space } => {
                Must::Order(order::outcome(&order::Call::new(sections, *space)))
            }
            Task::Turn { set, marks } => Must::Turn(withdraw::outcomes(set, marks)),
            Task::Pair { ty, words } => Must::Pair(model::pair(*ty, &values_of(*ty, words))),
        })
    }
    fn show(&self) -> String {
        match self {
            Task::Join { sections, lent, source } => {
                let from = match source {
                    Source::Converted(input) => {
                        format!("\n  converted from: {}", show(&input.sections()))
                    }
                    _ => String::new(),
                };
                format!("join: {}\n  {lent:?}{from}", show(sections))
            }
            Task::Convert { sections, space } => format!("conversion: {}\n  {space:?}", show(sections)),
            Task::Order { sections, space } => {
                format!("time order: {}\n  space for {space} addresses", show(sections))
            }
            Task::Turn { set, marks } => short(format!("withdraw and reinstate: {set:?}\n  {marks:?}")),
            Task::Pair { ty, words } => {
                short(format!("least and greatest value: type {ty}, words {words:?}"))
            }
        }
    }
}

impl Source {
    fn expected(&self, call: &Call) -> Result<Outcome, String> {
        match self {
            Source::Drawn => expected(call, None),
            Source::Converted(stored) => expected(call, Some(stored)),
            Source::Ordered => match expected(call, None)? {
                Outcome::Refused(n) => Err(format!("the table refuses the time order's addresses with {n}")),
                accepted => Ok(accepted),
            },
            // A column that can't be had is none of the alive sets' fault.
            Source::Marked => match expected(call, None)? {
                Outcome::Refused(n) if n != 10 => Err(format!("the table refuses what calls left with {n}")),
                outcome => Ok(outcome),
            },
        }
    }
}

/// What the joiner must answer, from the crate where it is accepted, else from the table. An error
/// where crate and model disagree. `stored`: the segments that these were converted from.
pub fn expected(call: &Call, stored: Option<&Input>) -> Result<Outcome, String> {
    let number = table::answer(call);
    let theirs = || stored.unwrap_or_else(|| call.input());
    if matches!(number, 0 | 10 | 11) {
        types_by_pairs(call.input())?;
    }
    if number == 10 && !table::two_categories(call.input()) {
        match run::column(theirs()) {
            Err(text) if text.starts_with("error: InvalidInput") => {}
            Err(text) => return Err(format!("the table refuses with 10, the crate: {text}")),
            Ok(l) => return Err(format!("the table refuses with 10, the crate joins to type {}", l.ty)),
        }
    }
    if number != 0 {
        return Ok(Outcome::Refused(number));
    }
    let model = call.joined();
    if run::beyond_the_crate(theirs()) {
        return Ok(Outcome::Accepted(model.clone()));
    }
    let mut listing =
        run::column(theirs()).map_err(|text| format!("the table accepts, the crate: {text}"))?;
    if let Some(stored) = stored {
        run::take_repeats_out(stored, &mut listing)?;
    }
    if listing.pair != model.pair {
        let (ours, theirs) = (model.pair, listing.pair);
        return Err(format!("the model's least and greatest value are {ours:?}, the crate's {theirs:?}"));
    }
    if listing != *model {
        let line = first_difference(&model.print(), &listing.print());
        return Err(format!("the model makes another column than the crate: {line}"));
    }
    Ok(Outcome::Accepted(listing))
}

/// "The type rule reads the pair and decides as before": what the model decides by the values, type and
/// coercion, must come of the records' pairs as well, which 5 has found true. An error where it doesn't.
fn types_by_pairs(input: &Input) -> Result<(), String> {
    let (to, by_pairs) = (model::joined_type(input), model::type_by_pairs(input));
    if to != by_pairs {
        return Err(format!("the type is {to} by the values, {by_pairs} by the pairs"));
    }
    let differs = |s: &&Seg| model::coercible(s, to) != model::coercible_by_pair(s.ty, to, s.pair());
    match input.segs.iter().filter(|s| model::held(s)).find(differs) {
        None => Ok(()),
        Some(s) => Err(format!("from type {} to {to} by the pair other than by the values", s.ty)),
    }
}

/// The calls of a case: joins, of any type and of addresses, what is made of stored segments, time orders,
/// least and greatest values, and withdraw and reinstate, or these two alone.
fn tasks(o: &Options, case: u64) -> Vec<Task> {
    let mut list = turns::tasks(&mut Rng::of_turns(o.seed, case));
    if !o.withdraw {
        let mut rng = Rng::of_case(o.seed, case);
        list.extend(joins(&mut rng, Types::Any));
        list.extend(joins(&mut rng, Types::Listeners));
        list.extend(stored_tasks(&mut rng));
        list.extend(orders::tasks(&mut Rng::of_orders(o.seed, case)));
        list.extend(pairs::tasks(&mut Rng::of_pairs(o.seed, case)));
    }
    list
}

/// The join of a good input, the pairs of its segments, and mostly the join of a damaged copy of it.
fn joins(rng: &mut Rng, types: Types) -> Vec<Task> {
    let shape = generate::shape(rng, false);
    let input = generate::input(rng, shape, Kinds::Joined, types);
    let sections = input.sections();
    let (lent, needed) = lend(rng, &sections);
    let mut list = pairs::of_segments(&input.segs);
    list.push(Task::join(sections, lent));
    let copies = match shape {
        Shape::Small => rng.pick(&[1, 1, 2]),
        Shape::Large => rng.one_in(4) as u32,
        _ => 1,
    };
    for _ in 0..copies {
        let (sections, lent) = damage::copy(rng, &input, needed, lent);
        list.push(Task::join(sections, lent));
    }
    list
}

/// Segments of kind 3 among others: each through the converter, in exact or more space; damaged
/// copies of them; the join of all as they are, which is refused; the join of all once converted.
fn stored_tasks(rng: &mut Rng) -> Vec<Task> {
    let shape = generate::stored_shape(rng);
    let types = if rng.one_in(5) { Types::Listeners } else { Types::Any };
    let stored = generate::input(rng, shape, Kinds::Stored, types);
    let old = || stored.segs.iter().filter(|s| s.kind == 3);
    let mut list = Vec::new();
    for s in old() {
        let (exact, needed) = (rng.one_in(3), convert::needed(s));
        let mut more = |n: usize| if exact { n } else { n + rng.index(9) };
        let space = Space { ids: more(needed.ids), offsets: more(needed.offsets) };
        list.push(Task::Convert { sections: convert::sections(s), space });
    }
    // Large dictionaries and many segments have one copy, as in the joins.
    let copies = if shape == Shape::Small { 3 } else { 1 };
    for s in old().take(copies) {
        let (sections, space) = damage::stored(rng, s);
        list.push(Task::Convert { sections, space });
    }
    let sections = convert::input(&stored).sections();
    let lent = lend(rng, &sections).0;
    if old().next().is_some() {
        list.push(Task::join(stored.sections(), lent));
    }
    list.push(Task::Join { sections, lent, source: Source::Converted(stored) });
    list
}

/// Lent space for a good input, exact or more, and the exact one.
fn lend(rng: &mut Rng, sections: &Sections) -> (Lent, Lent) {
    let call = Call::new(sections, Lent::default());
    // A refusal with 10 must not need space: any will do.
    let needed = if table::types(&call) { Lent::default() } else { table::needed(&call) };
    let exact = rng.one_in(3);
    let mut more = |n: usize| if exact { n } else { n + rng.index(9) };
    let working = match sections.mode {
        0 => 0,
        _ => sections.records.iter().map(|r| r[2] as usize).sum::<usize>() + sections.term_lengths.len(),
    };
    let lent = Lent {
        working: more(working),
        ids: more(needed.ids),
        offsets: more(needed.offsets),
        values: more(needed.values),
        term_lengths: more(needed.term_lengths),
        term_bytes: more(needed.term_bytes),
        map: more(needed.map),
    };
    (lent, Lent { working, ..needed })
}

/// The joining program's inputs of a case: a good one, a damaged copy of it, a damaged wire form.
pub fn program_inputs(seed: u64, case: u64) -> Vec<Vec<u8>> {
    let mut rng = Rng::of_case(seed, case);
    let types = if rng.one_in(3) { Types::Listeners } else { Types::Any };
    let (input, bytes) = loop {
        let shape = generate::shape(&mut rng, true);
        let input = generate::input(&mut rng, shape, Kinds::Joined, types);
        let bytes = input.sections().encode();
        if bytes.len() <= PROGRAM_BYTES {
            break (input, bytes);
        }
    };
    let damaged = damage::copy(&mut rng, &input, Lent::default(), PROGRAM).0;
    let mut wire = if rng.one_in(2) { bytes.clone() } else { damaged.encode() };
    damage::wire(&mut rng, &mut wire);
    let mut list = vec![bytes, damaged.encode(), wire];
    // Near the limit of 65,536 bytes: one segment of as many values as make so many words.
    if rng.one_in(200) {
        let (ty, words) = (rng.pick(&[1, IP]), rng.between(8_190, 8_194) as usize);
        let words: Vec<u64> = (22..words).map(|_| rng.next()).collect();
        let values = values_of(ty, &words[words.len() % width(ty)..]);
        let s = Seg { ty, kind: 1, rows: values.len() as u32, values, ..Seg::default() };
        let full = Input { mode: 0, required: 255, segs: vec![s], addresses: vec![] };
        list.push(full.sections().encode());
    }
    list
}

/// What the joining program must print.
pub fn expected_text(bytes: &[u8]) -> Result<(Outcome, String), String> {
    let outcome = match table::program_sections(bytes) {
        None => Outcome::Refused(2),
        Some(sections) => expected(&Call::new(&sections, PROGRAM), None)?,
    };
    let text = outcome.print();
    Ok((outcome, text))
}

/// How often which number was given.
#[derive(Default)]
struct Answers([u64; 20]);

impl Answers {
    fn accepted(&self) -> u64 {
        self.0[0]
    }
    fn add(&mut self, other: &Answers) {
        self.0.iter_mut().zip(other.0).for_each(|(a, b)| *a += b);
    }
    /// In the order of the checks.
    fn print(&self, numbers: impl Iterator<Item = u32>) -> String {
        let each: Vec<String> = numbers.map(|n| format!("{n}: {}", self.0[n as usize])).collect();
        let refused = self.0[1..].iter().sum::<u64>();
        format!("accepted {}, refused {refused} ({})", self.0[0], each.join(", "))
    }
}

#[derive(Default)]
struct Stats {
    joins: Answers,
    stacked: u64,
    alive: u64,
    required: u64,
    mixed: u64,
    unkept: u64,
    beyond: u64,
    wide: u64,
    most_values: u64,
    classes: [u64; 3],
    types: [u64; 8],
    none: u64,
    listeners: Listeners,
    conversions: Answers,
    old_types: [u64; 8],
    old_alive: u64,
    /// Of accepted ones: with a row of no value, without a value, without a row.
    empty_rows: [u64; 3],
    exact: u64,
    most_rows: u64,
    converted: Answers,
    converted_stacked: u64,
    repeats: u64,
    orders: Orders,
    turns: Turns,
    pairs: Pairs,
    differences: u64,
}

impl Stats {
    fn count(&mut self, task: &Task, must: &Must) {
        self.pairs.count(task, must);
        match (task, must) {
            (Task::Join { sections, source: Source::Drawn, .. }, Must::Join(outcome)) => {
                self.count_join(outcome, || sections.cut())
            }
            (Task::Join { source: Source::Converted(stored), .. }, Must::Join(outcome)) => {
                self.converted.0[outcome.number() as usize] += 1;
                if let Outcome::Accepted(l) = outcome {
                    self.converted_stacked += (stored.mode == 0) as u64;
                    self.repeats += (run::repeats(stored) > 0) as u64;
                    self.listeners.count(stored, l);
                }
            }
            (Task::Join { source: Source::Ordered, .. }, Must::Join(outcome)) => {
                self.orders.count_join(outcome)
            }
            (Task::Join { source: Source::Marked, .. }, Must::Join(outcome)) => {
                self.turns.count_join(outcome)
            }
            (Task::Turn { set, marks }, Must::Turn(outcomes)) => self.turns.count(set, marks, outcomes),
            (Task::Order { sections, space }, Must::Order(outcome)) => {
                self.orders.count(sections, *space, outcome)
            }
            (Task::Convert { sections, space }, Must::Convert(outcome)) => {
                self.count_conversion(sections, *space, outcome)
            }
            (Task::Pair { .. }, Must::Pair(_)) => {}
            _ => unreachable!(),
        }
    }

    fn count_join(&mut self, outcome: &Outcome, input: impl FnOnce() -> Input) {
        self.joins.0[outcome.number() as usize] += 1;
        let Outcome::Accepted(l) = outcome else { return };
        let input = input();
        let held = || input.segs.iter().filter(|s| model::held(s));
        self.stacked += (input.mode == 0) as u64;
        self.alive += input.segs.iter().any(|s| s.alive.is_some()) as u64;
        self.required += (input.required != 255) as u64;
        self.mixed += held().any(|s| s.ty != l.ty) as u64;
        self.beyond += run::beyond_the_crate(&input) as u64;
        self.unkept += held().flat_map(|s| &s.terms).any(|t| l.terms.binary_search(t).is_err()) as u64;
        let rows = input.segs.iter().map(|s| s.rows as u64).sum::<u64>();
        self.wide += (rows > 65_535) as u64;
        self.listeners.count(&input, l);
        self.most_values = self.most_values.max(input.segs.iter().map(|s| s.values.len() as u64).sum());
        match l.ty {
            255 => self.none += 1,
            ty => {
                self.types[ty as usize] += 1;
                self.classes[l.class as usize] += 1;
            }
        }
    }

    fn count_conversion(&mut self, sections: &Sections, space: Space, outcome: &convert::Outcome) {
        self.conversions.0[outcome.number() as usize] += 1;
        let convert::Outcome::Accepted(c) = outcome else { return };
        let [ty, _, rows, .., flag, _] = sections.records[0].numbers();
        self.old_types[ty as usize] += 1;
        self.old_alive += flag as u64;
        self.empty_rows[0] += (c.ids.len() < rows as usize) as u64;
        self.empty_rows[1] += c.ids.is_empty() as u64;
        self.empty_rows[2] += (rows == 0) as u64;
        self.exact += (space == Space { ids: c.ids.len(), offsets: c.offsets.len() }) as u64;
        self.most_rows = self.most_rows.max(rows as u64);
    }

    fn add(&mut self, other: &Stats) {
        fn add<const N: usize>(list: &mut [u64; N], other: [u64; N]) {
            list.iter_mut().zip(other).for_each(|(a, b)| *a += b);
        }
        self.joins.add(&other.joins);
        self.conversions.add(&other.conversions);
        self.converted.add(&other.converted);
        add(&mut self.classes, other.classes);
        add(&mut self.types, other.types);
        add(&mut self.old_types, other.old_types);
        add(&mut self.empty_rows, other.empty_rows);
        self.stacked += other.stacked;
        self.alive += other.alive;
        self.required += other.required;
        self.mixed += other.mixed;
        self.unkept += other.unkept;
        self.beyond += other.beyond;
        self.wide += other.wide;
        self.most_values = self.most_values.max(other.most_values);
        self.none += other.none;
        self.listeners.add(&other.listeners);
        self.old_alive += other.old_alive;
        self.exact += other.exact;
        self.most_rows = self.most_rows.max(other.most_rows);
        self.converted_stacked += other.converted_stacked;
        self.repeats += other.repeats;
        self.orders.add(&other.orders);
        self.turns.add(&other.turns);
        self.pairs.add(&other.pairs);
        self.differences += other.differences;
    }

    fn print(&self, o: &Options, ours: &Ours) {
        let name = match ours {
            Ours::Library => "the library",
            Ours::Program(_) => "the program",
            Ours::Model => "the model",
        };
        let numbers = || CHECKS.iter().map(|(number, _)| *number);
        if self.differences >= MOST_DIFFERENCES {
            println!("stopped, there are many differences");
        }
        let joins = if o.withdraw { String::new() } else { self.joins.print(numbers()) + ", " };
        println!(
            "seed {}, cases {} to {}, ours: {name}: {joins}differences {}",
            o.seed,
            o.from,
            o.from + o.count - 1,
            self.differences
        );
        if o.withdraw {
            return self.turns.print();
        }
        let t = &self.types;
        println!(
            "accepted: stacked {}, ordered {}, with alive sets {}, with a required type {}, coerced {}, \
             with unkept terms {}, above 65,535 rows {}, by the model alone {}; \
             type 255 {}, I64 {}, U64 {}, F64 {}, Bytes {}, Str {}, Bool {}, IpAddr {}, DateTime {}; \
             class 0 {}, 1 {}, 2 {}; most values in one call {}",
            self.stacked,
            self.joins.accepted() - self.stacked,
            self.alive,
            self.required,
            self.mixed,
            self.unkept,
            self.wide,
            self.beyond,
            self.none,
            t[0],
            t[1],
            t[2],
            t[3],
            t[4],
            t[5],
            t[6],
            t[7],
            self.classes[0],
            self.classes[1],
            self.classes[2],
            self.most_values
        );
        self.listeners.print();
        // The joining program has the join alone.
        if matches!(ours, Ours::Program(_)) {
            return;
        }
        let t = &self.old_types;
        println!(
            "conversions: {}; accepted: with a row of no value {}, without a value {}, without a row {}, \
             with alive sets {}, in exact space {}; \
             I64 {}, U64 {}, F64 {}, Bytes {}, Str {}, Bool {}, IpAddr {}, DateTime {}; most rows {}",
            self.conversions.print(convert::CHECKS.iter().map(|(number, _)| *number)),
            self.empty_rows[0],
            self.empty_rows[1],
            self.empty_rows[2],
            self.old_alive,
            self.exact,
            t[0],
            t[1],
            t[2],
            t[3],
            t[4],
            t[5],
            t[6],
            t[7],
            self.most_rows
        );
        println!(
            "joins of converted segments beside the crate's of the stored ones: {}; accepted: stacked {}, \
             ordered {}, without the crate's repeated offsets {}",
            self.converted.print([10].into_iter()),
            self.converted_stacked,
            self.converted.accepted() - self.converted_stacked,
            self.repeats
        );
        self.pairs.print();
        self.orders.print();
        self.turns.print();
    }
}

fn show(sections: &Sections) -> String {
    let text = match table::section_lengths(&Call::new(sections, Lent::default())) {
        false if sections.records.iter().all(|r| r[7] <= 1) => to_words(&sections.cut()),
        _ => format!("{sections:?}"),
    };
    short(text)
}

fn short(text: String) -> String {
    match text.len() {
        0..4_000 => text,
        n => format!("{n} characters long"),
    }
}

/// What is wrong with a task's call or calls, if anything.
fn fault(joiner: &mut dyn Joiner, task: &Task, must: &Must, salt: u64) -> Option<String> {
    let (before, answer, expected, fault) = match (task, must) {
        (Task::Join { sections, lent, .. }, Must::Join(outcome)) => {
            let mut lists = Lists::new(*lent, salt);
            let input = sections.clone();
            let answer = joiner.join(&input, &mut lists);
            (input == *sections, answer, outcome.number(), lists.fault(outcome))
        }
        (Task::Convert { sections, space }, Must::Convert(outcome)) => {
            let mut lists = NewLists::new(*space, salt);
            let input = sections.clone();
            let answer = joiner.convert(&input, &mut lists);
            (input == *sections, answer, outcome.number(), lists.fault(outcome))
        }
        (Task::Order { sections, space }, Must::Order(outcome)) => {
            let mut lists = Addresses::new(*space, salt);
            let input = sections.clone();
            let answer = joiner.order(&input, &mut lists);
            (input == *sections, answer, outcome.number(), lists.fault(outcome))
        }
        (Task::Turn { set, marks }, Must::Turn(outcomes)) => {
            return turns::fault(joiner, set, marks, outcomes, salt);
        }
        (Task::Pair { ty, words }, Must::Pair(pair)) => {
            let mut lent = Run::new(2, salt);
            let input = words.clone();
            joiner.pair(*ty, &input, &mut lent);
            (input == *words, 0, 0, lent.fault("least and greatest value", pair))
        }
        _ => unreachable!(),
    };
    if !before {
        return Some("the input was written to".into());
    }
    if answer != expected {
        return Some(format!("the answer is {answer}, must be {expected}"));
    }
    fault
}

/// What is wrong with a listing of what must come of a join, if anything.
fn listing_fault(list: fn(&Listing) -> String, outcome: &Outcome) -> Option<String> {
    let Outcome::Accepted(l) = outcome else { return None };
    let (is, must_be) = (list(l), l.print());
    (is != must_be).then(|| first_difference(&is, &must_be))
}

fn text_fault(program: &Path, bytes: &[u8], expected: &str) -> Option<String> {
    let child = Command::new(program).stdin(Stdio::piped()).stdout(Stdio::piped()).spawn();
    let mut child = child.unwrap_or_else(|e| panic!("{}: {e}", program.display()));
    let mut stdin = child.stdin.take().unwrap();
    let mut stdout = child.stdout.take().unwrap();
    let mut printed = Vec::new();
    std::thread::scope(|scope| {
        // The program may stop reading where it has seen enough.
        scope.spawn(move || drop(stdin.write_all(bytes)));
        stdout.read_to_end(&mut printed).unwrap();
    });
    let status = child.wait().unwrap();
    if status.code().is_none() {
        return Some(format!("it ended by {status}"));
    }
    if printed != expected.as_bytes() {
        return Some(first_difference(&String::from_utf8_lossy(&printed), expected));
    }
    None
}

fn first_difference(is: &str, must_be: &str) -> String {
    let cut = |line: Option<&str>| match line {
        None => "nothing".to_string(),
        Some(line) if line.len() > 300 => format!("{}..", line.chars().take(300).collect::<String>()),
        Some(line) => line.to_string(),
    };
    let (mut a, mut b) = (is.split_inclusive('\n'), must_be.split_inclusive('\n'));
    for number in 1.. {
        let (is, must_be) = (a.next(), b.next());
        if is != must_be {
            return format!("line {number} is {:?}, must be {:?}", cut(is), cut(must_be));
        }
        if is.is_none() {
            break;
        }
    }
    "nothing".into()
}

fn report(o: &Options, case: u64, call: usize, fault: &str, input: Option<String>) {
    let mut text = format!("DIFFERENCE in call {call} of case {case}: {fault}\n");
    if let Some(input) = input {
        text += &format!("  {input}\n");
    }
    print!("{text}  again: oracle/compare {} 1 --from {case}, with the same other options\n", o.seed);
}

/// Compares, prints the summary, and tells whether all is equal.
pub fn compare(o: &Options, ours: &Ours) -> bool {
    let found = AtomicU64::new(0);
    let worker = |job: u64| {
        let mut stats = Stats::default();
        let mut joiner: Option<Box<dyn Joiner>> = match ours {
            Ours::Library => Some(library()),
            Ours::Model => Some(Box::new(Standin::right())),
            Ours::Program(_) => None,
        };
        let differs = |stats: &mut Stats| {
            stats.differences += 1;
            found.fetch_add(1, Ordering::Relaxed);
        };
        for case in (o.from..o.from + o.count).filter(|case| case % o.jobs == job) {
            if found.load(Ordering::Relaxed) >= MOST_DIFFERENCES {
                break;
            }
            if let Ours::Program(path) = ours {
                for (i, bytes) in program_inputs(o.seed, case).iter().enumerate() {
                    let sections = table::program_sections(bytes);
                    let wrong = match expected_text(bytes) {
                        Err(fault) => Some(fault),
                        Ok((outcome, text)) => {
                            stats.count_join(&outcome, || sections.as_ref().unwrap().cut());
                            text_fault(path, bytes, &text)
                        }
                    };
                    if let Some(fault) = wrong {
                        differs(&mut stats);
                        report(o, case, i, &fault, sections.as_ref().map(show));
                    }
                }
                continue;
            }
            for (i, task) in tasks(o, case).iter().enumerate() {
                let wrong = match task.must() {
                    Err(fault) => Some(fault),
                    Ok(must) => {
                        stats.count(task, &must);
                        let joiner = joiner.as_mut().unwrap();
                        fault(joiner.as_mut(), task, &must, o.seed ^ case << 8)
                    }
                };
                if let Some(fault) = wrong {
                    differs(&mut stats);
                    report(o, case, i, &fault, Some(task.show()));
                }
            }
        }
        stats
    };
    let mut stats = Stats::default();
    std::thread::scope(|scope| {
        let workers: Vec<_> = (0..o.jobs).map(|job| scope.spawn(move || worker(job))).collect();
        for worker in workers {
            stats.add(&worker.join().expect("a worker panicked"));
        }
    });
    stats.print(o, ours);
    stats.differences == 0
}

/// Gives each slip the same calls until it is found, and tells whether all are.
pub fn find_slips(o: &Options) -> bool {
    let asked = || slips().filter(|slip| !o.withdraw || slip.part() == Part::Mark);
    let mut left: Vec<_> = asked().map(|slip| (slip, Standin::wrong(slip))).collect();
    for case in o.from..o.from + o.count {
        for task in tasks(o, case) {
            let must = task.must().unwrap_or_else(|fault| panic!("case {case}: {fault}"));
            left.retain_mut(|(slip, joiner)| {
                let fault = match (slip.how, &must) {
                    (How::List(list), Must::Join(outcome)) => listing_fault(list, outcome),
                    _ if slip.part() == task.part() => fault(joiner, &task, &must, o.seed ^ case << 8),
                    _ => None,
                };
                if let Some(fault) = &fault {
                    println!("found in case {case}: {} ({fault})", slip.name);
                }
                fault.is_none()
            });
        }
        if left.is_empty() {
            break;
        }
    }
    left.iter().for_each(|(slip, _)| println!("NOT FOUND: {}", slip.name));
    let all = asked().count();
    println!("seed {}, cases from {}: {} of {all} slips found", o.seed, o.from, all - left.len());
    left.is_empty()
}

#[cfg(library)]
fn library() -> Box<dyn Joiner> {
    Box::new(crate::library::Library)
}

#[cfg(not(library))]
fn library() -> Box<dyn Joiner> {
    panic!("built without the library: set JADMIRUS_LIB to its path when building")
}

pub fn has_library() -> bool {
    cfg!(library)
}

/// The crate's column, or the table's number; as the program prints it.
pub fn listing(sections: &Sections) -> Result<String, String> {
    let lent = Lent {
        working: usize::MAX,
        ids: usize::MAX,
        offsets: usize::MAX,
        values: usize::MAX,
        term_lengths: usize::MAX,
        term_bytes: usize::MAX,
        map: usize::MAX,
    };
    let call = Call::new(sections, lent);
    match table::answer(&call) {
        0 => Ok(run::column(call.input())?.print()),
        number => Ok(Outcome::Refused(number).print()),
    }
}

#[cfg(test)]
mod tests {
    use super::*;

    fn cases(seed: u64, count: u64) -> Options {
        Options { seed, from: 0, count, jobs: 1, withdraw: false }
    }

    #[test]
    fn model_agrees_with_the_crate() {
        assert!(compare(&cases(11, 3_000), &Ours::Model));
    }

    #[test]
    fn slips_are_found() {
        assert!(find_slips(&cases(1, 20_000)));
    }

    #[test]
    fn slips_of_withdraw_and_reinstate_are_found() {
        assert!(find_slips(&Options { withdraw: true, ..cases(2, 20_000) }));
    }
}
