//! The wire form of the sections: 64-bit words, the lowest byte first; nine sections, each after
//! its count.
use crate::pair::Pair;
use crate::sections::{Address, Record, Sections};
use std::error::Error;
use std::fmt;
use std::io::{self, BufReader, Read, Write};

/// Why no sections could be read.
#[derive(Debug)]
pub enum WireError {
    /// The input could not be read.
    Io(io::Error),
    /// The input is no wire form, which is answer 2.
    Fault(WireFault),
}

/// What keeps an input from being a wire form, and where.
#[derive(Clone, Debug, PartialEq, Eq)]
pub struct WireFault {
    /// The place of the word at fault, in bytes from the start.
    pub byte: u64,
    /// What is wrong there.
    pub text: String,
}

impl fmt::Display for WireFault {
    fn fmt(&self, f: &mut fmt::Formatter<'_>) -> fmt::Result {
        write!(f, "byte {}: {}", self.byte, self.text)
    }
}

impl fmt::Display for WireError {
    fn fmt(&self, f: &mut fmt::Formatter<'_>) -> fmt::Result {
        match self {
            WireError::Io(error) => error.fmt(f),
            WireError::Fault(fault) => fault.fmt(f),
        }
    }
}

impl Error for WireError {}

impl Sections {
    /// Reads a wire form to its end.
    pub fn read_wire(input: impl Read) -> Result<Sections, WireError> {
        let mut words = Words {
            input: BufReader::with_capacity(1 << 16, input),
            byte: 0,
        };
        let head: Vec<u32> = match words.count("mode and required type")? {
            2 => words.numbers(2, "mode or required type")?,
            count => {
                let text = format!("the first count is {count}, and a wire form begins with 2");
                return Err(words.fault(text));
            }
        };
        let sections = Sections {
            mode: head[0],
            required: head[1],
            records: words.records()?,
            ids: words.section("row id")?,
            offsets: words.section("offset")?,
            values: words.section("value word")?,
            term_lengths: words.section("term length")?,
            term_bytes: words.section("term byte")?,
            alive: words.section("alive word")?,
            addresses: words.addresses()?,
        };
        words.end()?;
        Ok(sections)
    }

    pub fn write_wire(&self, out: &mut dyn Write) -> io::Result<()> {
        write_word(out, 2u32)?;
        write_word(out, self.mode)?;
        write_word(out, self.required)?;
        write_word(out, self.records.len() as u64)?;
        for r in &self.records {
            r.numbers()
                .iter()
                .try_for_each(|&number| write_word(out, number))?;
        }
        write_section(out, &self.ids)?;
        write_section(out, &self.offsets)?;
        write_section(out, &self.values)?;
        write_section(out, &self.term_lengths)?;
        write_section(out, &self.term_bytes)?;
        write_section(out, &self.alive)?;
        write_word(out, self.addresses.len() as u64)?;
        for address in &self.addresses {
            write_word(out, address.segment)?;
            write_word(out, address.row)?;
        }
        Ok(())
    }
}

fn write_word(out: &mut dyn Write, number: impl Into<u64>) -> io::Result<()> {
    out.write_all(&number.into().to_le_bytes())
}

fn write_section<T: Copy + Into<u64>>(out: &mut dyn Write, list: &[T]) -> io::Result<()> {
    write_word(out, list.len() as u64)?;
    list.iter().try_for_each(|&number| write_word(out, number))
}

/// A count is believed only as far as its elements come: no more space is taken at first.
const FIRST_SPACE: u64 = 1 << 16;

struct Words<R> {
    input: BufReader<R>,
    /// Where the next word begins.
    byte: u64,
}

impl<R: Read> Words<R> {
    fn word(&mut self, what: &str) -> Result<u64, WireError> {
        let mut bytes = [0; 8];
        match self.input.read_exact(&mut bytes) {
            Ok(()) => {
                self.byte += 8;
                Ok(u64::from_le_bytes(bytes))
            }
            Err(error) if error.kind() == io::ErrorKind::UnexpectedEof => {
                Err(WireError::Fault(WireFault {
                    byte: self.byte,
                    text: format!("the input is cut: no whole {what}"),
                }))
            }
            Err(error) => Err(WireError::Io(error)),
        }
    }

    fn count(&mut self, what: &str) -> Result<u64, WireError> {
        self.word(&format!("count ({what})"))
    }

    /// A fault of the word read last.
    fn fault(&self, text: String) -> WireError {
        WireError::Fault(WireFault {
            byte: self.byte - 8,
            text,
        })
    }

    fn number<T: TryFrom<u64>>(&mut self, what: &str) -> Result<T, WireError> {
        let word = self.word(what)?;
        T::try_from(word).map_err(|_| {
            let bits = 8 * size_of::<T>();
            self.fault(format!(
                "{what} {word} is too wide: it must fit {bits} bits"
            ))
        })
    }

    fn numbers<T: TryFrom<u64>>(&mut self, count: u64, what: &str) -> Result<Vec<T>, WireError> {
        let mut list = Vec::with_capacity(count.min(FIRST_SPACE) as usize);
        for _ in 0..count {
            list.push(self.number(what)?);
        }
        Ok(list)
    }

    fn section<T: TryFrom<u64>>(&mut self, what: &str) -> Result<Vec<T>, WireError> {
        let count = self.count(what)?;
        self.numbers(count, what)
    }

    fn records(&mut self) -> Result<Vec<Record>, WireError> {
        let count = self.count("record")?;
        let mut records = Vec::with_capacity(count.min(FIRST_SPACE) as usize);
        for _ in 0..count {
            records.push(Record {
                typ: self.number("type")?,
                kind: self.number("kind")?,
                rows: self.number("number of rows")?,
                ids: self.number("number of row ids")?,
                offsets: self.number("number of offsets")?,
                values: self.number("number of values")?,
                terms: self.number("number of terms")?,
                flag: self.number("flag")?,
                alive_rows: self.number("number of alive rows")?,
                pair: Pair::new(self.word("least value")?, self.word("greatest value")?),
            });
        }
        Ok(records)
    }

    fn addresses(&mut self) -> Result<Vec<Address>, WireError> {
        let count = self.count("address")?;
        let mut addresses = Vec::with_capacity(count.min(FIRST_SPACE) as usize);
        for _ in 0..count {
            let segment = self.number("segment of an address")?;
            addresses.push(Address {
                segment,
                row: self.number("row of an address")?,
            });
        }
        Ok(addresses)
    }

    fn end(mut self) -> Result<(), WireError> {
        match self.input.read(&mut [0]).map_err(WireError::Io)? {
            0 => Ok(()),
            _ => Err(WireError::Fault(WireFault {
                byte: self.byte,
                text: "there are bytes after the last section".to_string(),
            })),
        }
    }
}

#[cfg(test)]
mod tests {
    use super::*;

    fn bytes(words: &[u64]) -> Vec<u8> {
        words.iter().flat_map(|w| w.to_le_bytes()).collect()
    }

    fn fault(bytes: &[u8]) -> String {
        match Sections::read_wire(bytes) {
            Err(WireError::Fault(fault)) => fault.to_string(),
            other => panic!("no fault: {other:?}"),
        }
    }

    const NOTHING: [u64; 11] = [2, 0, 255, 0, 0, 0, 0, 0, 0, 0, 0];

    #[test]
    fn no_segments() {
        let sections = Sections::read_wire(&bytes(&NOTHING)[..]).unwrap();
        assert_eq!((sections.mode, sections.required), (0, 255));
        assert_eq!(sections, Sections::default());
    }

    #[test]
    fn cut_inputs_and_surplus_bytes() {
        let whole = bytes(&NOTHING);
        for cut in 0..whole.len() {
            let place = cut / 8 * 8;
            assert!(fault(&whole[..cut]).starts_with(&format!("byte {place}: the input is cut")));
        }
        let longer = [whole, vec![0]].concat();
        assert_eq!(
            fault(&longer),
            "byte 88: there are bytes after the last section"
        );
    }

    #[test]
    fn counts_that_nothing_follows() {
        for place in 3..11 {
            for count in [1, 1 << 58, 1 << 60, 1 << 61, 1 << 63, u64::MAX] {
                let mut words = NOTHING;
                words[place] = count;
                assert!(
                    fault(&bytes(&words)).contains("the input is cut"),
                    "{place} {count}"
                );
            }
        }
        assert_eq!(
            fault(&bytes(&[3; 20])),
            "byte 0: the first count is 3, and a wire form begins with 2"
        );
    }

    #[test]
    fn numbers_too_wide() {
        let wide = |words: &[u64]| fault(&bytes(words)).contains("is too wide");
        assert!(wide(&[2, 1 << 32, 255, 0, 0, 0, 0, 0, 0, 0, 0]));
        assert!(wide(&[2, 0, 255, 0, 1, 1 << 32, 0, 0, 0, 0, 0, 0]));
        assert!(wide(&[2, 0, 255, 0, 0, 0, 0, 0, 1, 256, 0, 0]));
        assert!(wide(&[2, 0, 255, 0, 0, 0, 0, 0, 0, 0, 1, 0, 1 << 32]));
        let text = fault(&bytes(&[2, 0, 255, 0, 0, 1, 1 << 32, 0, 0, 0, 0, 0]));
        assert_eq!(
            text,
            "byte 48: offset 4294967296 is too wide: it must fit 32 bits"
        );
        let mut record = [&[2, 0, 255, 1], &[0; 8][..], &[1 << 32], &[0; 9]].concat();
        let text = fault(&bytes(&record));
        assert_eq!(
            text,
            "byte 96: number of alive rows 4294967296 is too wide: it must fit 32 bits"
        );
        record[12] -= 1;
        let sections = Sections::read_wire(&bytes(&record)[..]).unwrap();
        assert_eq!(sections.records[0].alive_rows, u32::MAX);
        // The pair may be any two words.
        (record[13], record[14]) = (u64::MAX, 1 << 32 | 7);
        let sections = Sections::read_wire(&bytes(&record)[..]).unwrap();
        let pair = Pair::new(u64::MAX, 1 << 32 | 7);
        assert_eq!(sections.records[0].pair, pair);
        let mut written = Vec::new();
        sections.write_wire(&mut written).unwrap();
        assert_eq!(written, bytes(&record));
        let values = bytes(&[2, 0, 255, 0, 0, 0, 1, u64::MAX, 0, 0, 0, 0]);
        assert_eq!(Sections::read_wire(&values[..]).unwrap().values, [u64::MAX]);
    }
}
