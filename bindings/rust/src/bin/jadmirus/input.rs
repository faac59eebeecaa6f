//! Reading sections, as a sheet or in their wire form.
use crate::Failure;
use crate::arguments::{Form, Place};
use crate::progress::{Progress, Watched};
use jadmirus::{Sections, WireError, WireFault, sheet};
use std::fs::File;
use std::io::{self, BufReader, Cursor, Read};

/// What an input holds: sections, or a wire form's fault, which is answer 2.
pub type Input = Result<Sections, WireFault>;

/// How a place is called in messages.
pub fn name(place: &Place) -> String {
    match place {
        Place::Standard => "standard input".to_string(),
        Place::File(path) => path.display().to_string(),
    }
}

/// An input, and how it was written.
pub struct Source {
    pub input: Input,
    pub form: Form,
    /// A sheet's own text, if it was to be kept.
    pub text: String,
}

pub fn read(
    place: &Place,
    form: Option<Form>,
    keep: bool,
    progress: &mut Progress,
) -> Result<Source, Failure> {
    let failed = |error: io::Error| Failure::of(&name(place), error);
    let mut reader: Box<dyn Read> = match place {
        Place::Standard => Box::new(io::stdin().lock()),
        Place::File(path) => Box::new(File::open(path).map_err(failed)?),
    };
    let mut start = Vec::new();
    reader
        .by_ref()
        .take(8)
        .read_to_end(&mut start)
        .map_err(failed)?;
    let form = form.unwrap_or_else(|| form_of(&start));
    let mut reader = Watched {
        reader: Cursor::new(start).chain(reader),
        progress,
    };
    let mut text = Vec::new();
    let input = match form {
        Form::Sheet => {
            let sections = if keep {
                reader.read_to_end(&mut text).map_err(failed)?;
                sheet::read(&text[..])
            } else {
                sheet::read(BufReader::with_capacity(1 << 16, reader))
            };
            Ok(sections.map_err(|error| Failure::of(&name(place), error))?)
        }
        Form::Wire => match Sections::read_wire(reader) {
            Ok(sections) => Ok(sections),
            Err(WireError::Fault(fault)) => Err(fault),
            Err(WireError::Io(error)) => return Err(failed(error)),
        },
    };
    // What was read as a sheet is UTF-8.
    let text = String::from_utf8(text).unwrap_or_default();
    Ok(Source { input, form, text })
}

/// A wire form begins with a small number in eight bytes, so with zeros among them. A text has none,
/// but for one in UTF-16, which begins with its mark and is to be told that it is no UTF-8.
fn form_of(start: &[u8]) -> Form {
    match start {
        [0xff, 0xfe, ..] | [0xfe, 0xff, ..] => Form::Sheet,
        _ if start.contains(&0) => Form::Wire,
        _ => Form::Sheet,
    }
}
