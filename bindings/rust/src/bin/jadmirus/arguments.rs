//! The words of the command line.
use crate::Failure;
use crate::help;
use std::ffi::{OsStr, OsString};
use std::path::PathBuf;

#[derive(Clone, Copy, Debug, PartialEq, Eq)]
pub enum Command {
    Join,
    Order,
    Check,
    Convert,
    Withdraw,
    Reinstate,
    Encode,
    Show,
}

/// How sections stand in a file.
#[derive(Clone, Copy, Debug, PartialEq, Eq)]
pub enum Form {
    Sheet,
    Wire,
}

/// What is read or written.
#[derive(Clone, Debug, PartialEq, Eq)]
pub enum Place {
    /// Standard input or standard output.
    Standard,
    File(PathBuf),
}

#[derive(Debug)]
pub struct Arguments {
    pub command: Command,
    pub input: Place,
    /// The input's form; none if it is to be seen from the input.
    pub from: Option<Form>,
    pub output: Option<Place>,
    /// The form of a joined column's output, if it is named.
    pub output_form: Option<Form>,
    /// To check for the time order, not for a join.
    pub times: bool,
    /// To print a joined column's rows, not its listing.
    pub rows: bool,
    /// To print its numbers, not its listing.
    pub numbers: bool,
    /// The segment whose rows are to be withdrawn or reinstated, and these rows.
    pub segment: u32,
    pub marked: Vec<u32>,
}

pub enum Request {
    Print(String),
    Run(Arguments),
}

impl Command {
    fn of(word: &str) -> Option<Command> {
        match word {
            "join" => Some(Command::Join),
            "order" => Some(Command::Order),
            "check" => Some(Command::Check),
            "convert" => Some(Command::Convert),
            "withdraw" => Some(Command::Withdraw),
            "reinstate" => Some(Command::Reinstate),
            "encode" => Some(Command::Encode),
            "show" => Some(Command::Show),
            _ => None,
        }
    }

    pub fn word(self) -> &'static str {
        match self {
            Command::Join => "join",
            Command::Order => "order",
            Command::Check => "check",
            Command::Convert => "convert",
            Command::Withdraw => "withdraw",
            Command::Reinstate => "reinstate",
            Command::Encode => "encode",
            Command::Show => "show",
        }
    }

    /// Whether it withdraws or reinstates rows.
    pub fn marks(self) -> bool {
        matches!(self, Command::Withdraw | Command::Reinstate)
    }

    fn takes(self, option: &str) -> bool {
        match option {
            "--from" => true,
            "--output" => self != Command::Check,
            "--as" | "--rows" | "--numbers" => self == Command::Join,
            "--times" => self == Command::Check,
            _ => false,
        }
    }
}

pub fn request(mut words: impl Iterator<Item = OsString>) -> Result<Request, Failure> {
    let first = words.next().map(|word| word.to_string_lossy().into_owned());
    match first.as_deref() {
        None => Err(Failure(
            "no command; 'jadmirus --help' lists them".to_string(),
        )),
        Some("--help" | "-h" | "help") => Ok(Request::Print(help::WHOLE.to_string())),
        Some("--version" | "-V") => Ok(Request::Print(format!(
            "jadmirus {}\n",
            env!("CARGO_PKG_VERSION")
        ))),
        Some(word) => match Command::of(word) {
            Some(command) => of_command(command, words),
            None => Err(Failure(format!(
                "'{word}' is no command; 'jadmirus --help' lists them"
            ))),
        },
    }
}

fn of_command(
    command: Command,
    mut words: impl Iterator<Item = OsString>,
) -> Result<Request, Failure> {
    let mut plain = Vec::new();
    let mut arguments = Arguments {
        command,
        input: Place::Standard,
        from: None,
        output: None,
        output_form: None,
        times: false,
        rows: false,
        numbers: false,
        segment: 0,
        marked: Vec::new(),
    };
    while let Some(word) = words.next() {
        match word.to_str() {
            Some("--help" | "-h") => return Ok(Request::Print(help::of(command).to_string())),
            // What stands behind it is no option, whatever it begins with.
            Some("--") => plain.extend(words.by_ref()),
            _ if word == "-" || !word.as_encoded_bytes().starts_with(b"-") => plain.push(word),
            _ => take_option(&mut arguments, &word, &mut words)
                .map_err(|text| usage(command, &text))?,
        }
    }
    if let Some(text) = contradiction(&arguments) {
        return Err(usage(command, text));
    }
    take_words(&mut arguments, plain).map_err(|text| usage(command, &text))?;
    Ok(Request::Run(arguments))
}

/// Takes the words that are no options: a file and, if rows are marked, a segment and rows of it.
fn take_words(arguments: &mut Arguments, words: Vec<OsString>) -> Result<(), String> {
    let mut words = words.into_iter();
    arguments.input = place(words.next().ok_or("it wants a file")?);
    if arguments.command.marks() {
        arguments.segment = number(&words.next().ok_or("it wants a segment's number")?)?;
        arguments.marked = words
            .by_ref()
            .map(|word| number(&word))
            .collect::<Result<_, _>>()?;
        if arguments.marked.is_empty() {
            return Err("it wants a row's number".to_string());
        }
    }
    match words.next() {
        None => Ok(()),
        Some(_) => Err("it takes one file".to_string()),
    }
}

/// Why options don't go together: none is passed over unsaid.
fn contradiction(arguments: &Arguments) -> Option<&'static str> {
    match &arguments.output {
        None if arguments.output_form.is_some() => {
            Some("'--as' is the form of what '--output' writes")
        }
        Some(Place::Standard) if arguments.rows => {
            Some("'--rows' and '--output -' both write to standard output")
        }
        Some(Place::Standard) if arguments.numbers => {
            Some("'--numbers' and '--output -' both write to standard output")
        }
        _ if arguments.rows && arguments.numbers => {
            Some("'--rows' and '--numbers' both stand in the listing's place")
        }
        _ => None,
    }
}

/// Takes an option. Its value stands after it, or behind an equals sign.
fn take_option(
    arguments: &mut Arguments,
    word: &OsStr,
    words: &mut dyn Iterator<Item = OsString>,
) -> Result<(), String> {
    let text = word.to_str().ok_or_else(|| {
        let shown = word.display();
        format!("'{shown}' is no UTF-8 text: write a file's name as a word of its own")
    })?;
    let (option, behind) = match text.split_once('=') {
        Some((option, value)) => (option, Some(OsString::from(value))),
        None => (text, None),
    };
    if !arguments.command.takes(option) {
        return Err(format!("'{option}' is no option of it"));
    }
    if behind.is_some() && matches!(option, "--times" | "--rows" | "--numbers") {
        return Err(format!("'{option}' takes no value"));
    }
    let value = || {
        let value = behind.or_else(|| words.next());
        value.ok_or_else(|| format!("'{option}' wants a word after it"))
    };
    match option {
        "--times" => arguments.times = true,
        "--rows" => arguments.rows = true,
        "--numbers" => arguments.numbers = true,
        "--output" => arguments.output = Some(place(value()?)),
        "--from" => arguments.from = Some(form_of(&value()?)?),
        _ => arguments.output_form = Some(form_of(&value()?)?),
    }
    Ok(())
}

/// A segment's number, or a row's.
fn number(word: &OsStr) -> Result<u32, String> {
    let parsed = word.to_str().and_then(|word| word.parse().ok());
    parsed.ok_or_else(|| {
        let shown = word.display();
        format!("'{shown}' is no number from 0 to {}", u32::MAX)
    })
}

fn place(word: OsString) -> Place {
    if word == "-" {
        Place::Standard
    } else {
        Place::File(word.into())
    }
}

fn form_of(word: &OsStr) -> Result<Form, String> {
    match word.to_str() {
        Some("sheet") => Ok(Form::Sheet),
        Some("wire") => Ok(Form::Wire),
        _ => Err("a form is 'sheet' or 'wire'".to_string()),
    }
}

fn usage(command: Command, text: &str) -> Failure {
    let word = command.word();
    Failure(format!("{word}: {text}; see 'jadmirus {word} --help'"))
}
