//! The commands.
use crate::Failure;
use crate::arguments::{Arguments, Command, Form, Place};
use crate::input::{self, Input, Source};
use crate::output::{to, to_stdout};
use crate::progress::Progress;
use jadmirus::explain::{self, Fault};
use jadmirus::{Joined, Record, Refusal, Sections, Segment, WireFault, sheet};
use std::fmt;
use std::io::{self, IsTerminal, Write, stdout};

#[derive(Clone, Copy, Debug, PartialEq, Eq)]
pub enum Status {
    Accepted,
    Refused,
}

pub fn run(arguments: &Arguments) -> Result<Status, Failure> {
    let mut progress = Progress::new();
    let keep = arguments.command == Command::Convert || arguments.command.marks();
    let source = input::read(&arguments.input, arguments.from, keep, &mut progress)?;
    let what = match arguments.command {
        Command::Join => "joining",
        Command::Order => "ordering",
        Command::Check => "checking",
        Command::Convert => "converting",
        Command::Withdraw => "withdrawing",
        Command::Reinstate => "reinstating",
        Command::Encode | Command::Show => "writing",
    };
    progress.step(what);
    match arguments.command {
        Command::Join => join(arguments, source.input),
        Command::Order => order(arguments, source.input),
        Command::Check => check(arguments, source.input),
        Command::Convert => convert(arguments, source),
        Command::Withdraw | Command::Reinstate => mark(arguments, source),
        Command::Encode => encode(arguments, source.input),
        Command::Show => show(arguments, source.input),
    }
}

fn join(arguments: &Arguments, input: Input) -> Result<Status, Failure> {
    let sections = match input {
        Ok(sections) => sections,
        Err(fault) => return refuse_wire(arguments, &fault),
    };
    let joined = match sections.join() {
        Ok(joined) => joined,
        Err(refusal) => return refuse(arguments, refusal),
    };
    drop(sections);
    // First the file: who sees a listing can rely on it.
    if let Some(output) = &arguments.output {
        let form = arguments.output_form.unwrap_or(Form::Sheet);
        hand_on(joined.clone(), output, form)?;
    }
    if arguments.output != Some(Place::Standard) {
        to_stdout(|out| match (arguments.rows, arguments.numbers) {
            (true, _) => write_rows(&joined, out),
            (_, true) => joined.write_numbers(out),
            _ => joined.write_listing(out),
        })?;
    }
    Ok(Status::Accepted)
}

/// Writes each row that has values, with them.
fn write_rows(joined: &Joined, out: &mut dyn Write) -> io::Result<()> {
    for (row, mut values) in joined.filled_rows() {
        write!(out, "{row}")?;
        values.try_for_each(|value| write!(out, " {value}"))?;
        writeln!(out)?;
    }
    Ok(())
}

/// Writes the joined column as a segment.
fn hand_on(joined: Joined, output: &Place, form: Form) -> Result<(), Failure> {
    let sections =
        Sections::of(&[Segment::from(joined)]).map_err(|refusal| Failure(refusal.to_string()))?;
    match form {
        Form::Sheet => to(output, |out| sheet::write_segments(&sections, out)),
        Form::Wire => write_wire(&sections, Some(output)),
    }
}

fn order(arguments: &Arguments, input: Input) -> Result<Status, Failure> {
    match input.map(|sections| sections.time_order()) {
        Err(fault) => refuse_wire(arguments, &fault),
        Ok(Err(refusal)) => refuse(arguments, refusal),
        Ok(Ok(addresses)) => {
            let output = arguments.output.as_ref().unwrap_or(&Place::Standard);
            to(output, |out| sheet::write_addresses(&addresses, out))?;
            Ok(Status::Accepted)
        }
    }
}

fn check(arguments: &Arguments, input: Input) -> Result<Status, Failure> {
    let sections = match input {
        Ok(sections) => sections,
        Err(fault) => {
            let refusal = Refusal::Lengths;
            let (number, name) = (refusal.number(), refusal.name());
            to_stdout(|out| writeln!(out, "answer {number} ({name})\n{fault}"))?;
            return Ok(Status::Refused);
        }
    };
    let (found, answered) = match arguments.times {
        true => (explain::time_order(&sections), sections.time_order().err()),
        false => (explain::join(&sections), sections.join().err()),
    };
    space(arguments, answered)?;
    to_stdout(|out| match (answered, &found) {
        (None, _) => writeln!(out, "answer 0\naccepted"),
        (Some(refusal), found) => {
            writeln!(out, "answer {} ({})", refusal.number(), refusal.name())?;
            match found {
                Some(fault) if fault.refusal == refusal => writeln!(out, "{fault}"),
                _ => writeln!(out, "{}", refusal.sentence()),
            }
        }
    })?;
    agree(answered, found)
}

/// Holds the explanation to the library's answer.
fn agree(answered: Option<Refusal>, found: Option<Fault>) -> Result<Status, Failure> {
    let explained = found.as_ref().map(|fault| fault.refusal);
    match answered {
        Some(_) if answered == explained => return Ok(Status::Refused),
        None if explained.is_none() => return Ok(Status::Accepted),
        _ => {}
    }
    let answer = answered.map_or(0, Refusal::number);
    let found = match found {
        None => "nothing to refuse".to_string(),
        Some(fault) => format!("answer {} ({fault})", fault.refusal.number()),
    };
    Err(Failure(format!(
        "the library's answer is {answer}, and the check finds {found}: one of them is wrong; \
         please report this with the file"
    )))
}

fn convert(arguments: &Arguments, source: Source) -> Result<Status, Failure> {
    let mut sections = match source.input {
        Ok(sections) => sections,
        Err(fault) => return refuse_wire(arguments, &fault),
    };
    let old = sections.has_old_segments();
    if let Err(refusal) = sections.convert() {
        let found = explain::convert(&sections).filter(|fault| fault.refusal == refusal);
        return refuse_at(arguments, refusal, found);
    }
    write_anew(arguments, source.form, &sections, |out| match old {
        true => sheet::write_converted(&source.text, &sections, out),
        false => out.write_all(source.text.as_bytes()),
    })?;
    Ok(Status::Accepted)
}

/// Withdraws or reinstates rows of a segment.
fn mark(arguments: &Arguments, source: Source) -> Result<Status, Failure> {
    let mut sections = match source.input {
        Ok(sections) => sections,
        Err(fault) => return refuse_wire(arguments, &fault),
    };
    let (segment, rows) = (arguments.segment as usize, &arguments.marked[..]);
    if segment >= sections.records.len() {
        let text = match sections.records.len() {
            0 => format!("there is no segment {segment}, nor any other"),
            n => format!("there is no segment {segment}: the last one is {}", n - 1),
        };
        return Err(Failure::of(&input::name(&arguments.input), text));
    }
    let answered = match arguments.command {
        Command::Withdraw => sections.withdraw_rows(segment, rows),
        _ => sections.reinstate_rows(segment, rows),
    };
    let changed = match answered {
        Ok(changed) => changed,
        Err(refusal) => {
            let found = explain::mark_rows(&sections, segment, rows);
            let found = found.filter(|fault| fault.refusal == refusal);
            return refuse_at(arguments, refusal, found);
        }
    };
    write_anew(arguments, source.form, &sections, |out| match changed {
        0 => out.write_all(source.text.as_bytes()),
        _ => sheet::write_marked(&source.text, &sections, segment, out),
    })?;
    let name = input::name(&arguments.input);
    let what = marked_text(arguments, changed, &sections.records[segment]);
    eprintln!("jadmirus: {name}: segment {segment}: {what}");
    Ok(Status::Accepted)
}

/// What was done, in words.
fn marked_text(arguments: &Arguments, changed: u32, record: &Record) -> String {
    let (done, so) = match arguments.command {
        Command::Withdraw => ("withdrawn", "withdrawn"),
        _ => ("reinstated", "alive"),
    };
    let alive = format!("{} of {} rows alive", record.alive_rows, record.rows);
    match (&arguments.marked[..], changed) {
        ([row], 0) => format!("row {row} was {so} already; nothing changed"),
        ([row], _) => format!("row {row} {done}, {alive}"),
        (_, 0) => format!("the rows were {so} already; nothing changed"),
        (_, 1) => format!("1 row {done}, {alive}"),
        (_, several) => format!("{several} rows {done}, {alive}"),
    }
}

/// Writes what was read, changed: a wire form as a wire form, a sheet by its own text.
fn write_anew(
    arguments: &Arguments,
    form: Form,
    sections: &Sections,
    write: impl FnOnce(&mut dyn Write) -> io::Result<()>,
) -> Result<(), Failure> {
    let output = arguments.output.as_ref();
    match form {
        Form::Wire => write_wire(sections, output),
        Form::Sheet => to(output.unwrap_or(&Place::Standard), write),
    }
}

fn encode(arguments: &Arguments, input: Input) -> Result<Status, Failure> {
    let sections = unrefused(arguments, input)?;
    write_wire(&sections, arguments.output.as_ref())?;
    Ok(Status::Accepted)
}

fn show(arguments: &Arguments, input: Input) -> Result<Status, Failure> {
    let sections = unrefused(arguments, input)?;
    let output = arguments.output.as_ref().unwrap_or(&Place::Standard);
    to(output, |out| sheet::write(&sections, out))?;
    Ok(Status::Accepted)
}

fn write_wire(sections: &Sections, output: Option<&Place>) -> Result<(), Failure> {
    let output = output.unwrap_or(&Place::Standard);
    if *output == Place::Standard && stdout().is_terminal() {
        let text = "a wire form is not for a screen: name a file with --output, or use a pipe";
        return Err(Failure(text.to_string()));
    }
    to(output, |out| sections.write_wire(out))
}

/// The sections, for a command that has no answer.
fn unrefused(arguments: &Arguments, input: Input) -> Result<Sections, Failure> {
    input.map_err(|fault| Failure::of(&input::name(&arguments.input), fault))
}

/// 8 and 11 come from this machine's memory here, and not from the file: no refusal of it.
fn space(arguments: &Arguments, answered: Option<Refusal>) -> Result<(), Failure> {
    match answered {
        Some(Refusal::WorkingSpace | Refusal::OutputSpace) => {
            let text = "there is not enough memory for the result";
            Err(Failure::of(&input::name(&arguments.input), text))
        }
        _ => Ok(()),
    }
}

fn refuse(arguments: &Arguments, refusal: Refusal) -> Result<Status, Failure> {
    space(arguments, Some(refusal))?;
    to_stdout(|out| writeln!(out, "answer {}", refusal.number()))?;
    eprintln!("jadmirus: {}: {refusal}", input::name(&arguments.input));
    if let Place::File(path) = &arguments.input {
        let times = if arguments.command == Command::Order {
            " --times"
        } else {
            ""
        };
        eprintln!(
            "jadmirus: 'jadmirus check{times} {}' says where",
            path.display()
        );
    }
    Ok(Status::Refused)
}

/// A wire form that can't be read is answer 2, before all other checks.
fn refuse_wire(arguments: &Arguments, fault: &WireFault) -> Result<Status, Failure> {
    refuse_at(arguments, Refusal::Lengths, Some(fault))
}

/// Tells a refusal and at once its place, if one was found.
fn refuse_at(
    arguments: &Arguments,
    refusal: Refusal,
    fault: Option<impl fmt::Display>,
) -> Result<Status, Failure> {
    to_stdout(|out| writeln!(out, "answer {}", refusal.number()))?;
    let name = input::name(&arguments.input);
    eprintln!("jadmirus: {name}: {refusal}");
    if let Some(fault) = fault {
        eprintln!("jadmirus: {name}: {fault}");
    }
    Ok(Status::Refused)
}

#[cfg(test)]
mod tests {
    use super::*;

    #[test]
    fn the_check_is_held_to_the_answer() {
        let fault = |refusal| {
            let text = "segment 0".to_string();
            Some(Fault { refusal, text })
        };
        let told = |answered, found| agree(answered, found).map_err(|Failure(text)| text);
        let types = Some(Refusal::Types);
        assert_eq!(told(None, None), Ok(Status::Accepted));
        assert_eq!(told(types, fault(Refusal::Types)), Ok(Status::Refused));
        let differs = [
            (
                None,
                fault(Refusal::Types),
                "answer is 0, and the check finds answer 10",
            ),
            (
                types,
                None,
                "answer is 10, and the check finds nothing to refuse",
            ),
            (
                types,
                fault(Refusal::Contents),
                "answer is 10, and the check finds answer 5",
            ),
        ];
        for (answered, found, text) in differs {
            assert!(told(answered, found).unwrap_err().contains(text));
        }
    }
}
