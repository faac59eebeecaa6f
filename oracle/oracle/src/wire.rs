//! Document 01's sections, cut into segments or in one run each, their wire form (64-bit
//! little-endian words), and the listing. A segment's or a column's value is one number here; only
//! sections, outputs and the listing hold words.

use std::ops::{Index, IndexMut};
use std::slice::SliceIndex;

/// The least and the greatest value.
pub type Pair = [u64; 2];

/// A record as it is lent: nine numbers of 32 bits, namely type, kind, rows, numbers of row ids, offsets,
/// values and terms, alive flag and the number of alive rows, and then the two of 64 bits, the least and the
/// greatest stored value, each as its low and its high half. The last three are document 02's.
#[derive(Clone, Copy, Debug, Default, PartialEq, Eq)]
#[repr(transparent)]
pub struct Record(pub [u32; ROW]);

/// How many numbers of a record have 32 bits.
pub const NARROW: usize = 9;
/// How many numbers a record has, on the wire a word each.
pub const RECORD: usize = NARROW + 2;
/// How many elements it has where it is lent.
pub const ROW: usize = NARROW + 4;

impl Record {
    pub fn new(numbers: [u32; NARROW], pair: Pair) -> Record {
        let mut record = Record::default();
        record.0[..NARROW].copy_from_slice(&numbers);
        record.set_pair(pair);
        record
    }
    /// Those of 32 bits.
    pub fn numbers(&self) -> [u32; NARROW] {
        std::array::from_fn(|i| self.0[i])
    }
    pub fn pair(&self) -> Pair {
        let whole = |low: usize| self.0[low] as u64 | (self.0[low + 1] as u64) << 32;
        [whole(NARROW), whole(NARROW + 2)]
    }
    pub fn set_pair(&mut self, pair: Pair) {
        for (halves, word) in self.0[NARROW..].chunks_mut(2).zip(pair) {
            halves.copy_from_slice(&[word as u32, (word >> 32) as u32]);
        }
    }
    /// On the wire.
    fn words(&self) -> [u64; RECORD] {
        let (numbers, pair) = (self.numbers(), self.pair());
        std::array::from_fn(|i| if i < NARROW { numbers[i] as u64 } else { pair[i - NARROW] })
    }
    /// From the wire; none where one of the first nine is wider than 32 bits.
    fn from_words(words: [u64; RECORD]) -> Option<Record> {
        let mut numbers = [0; NARROW];
        for (number, word) in numbers.iter_mut().zip(words) {
            *number = u32::try_from(word).ok()?;
        }
        Some(Record::new(numbers, [words[NARROW], words[NARROW + 1]]))
    }
}

/// Of the numbers of 32 bits.
impl<I: SliceIndex<[u32]>> Index<I> for Record {
    type Output = I::Output;
    fn index(&self, i: I) -> &I::Output {
        &self.0[..NARROW][i]
    }
}

impl<I: SliceIndex<[u32]>> IndexMut<I> for Record {
    fn index_mut(&mut self, i: I) -> &mut I::Output {
        &mut self.0[..NARROW][i]
    }
}

/// The sections as they are lent: each kind of element in one run.
#[derive(Clone, Debug, Default, PartialEq, Eq)]
pub struct Sections {
    pub mode: u32,
    pub required: u32,
    pub records: Vec<Record>,
    pub ids: Vec<u32>,
    pub offsets: Vec<u32>,
    /// words
    pub values: Vec<u64>,
    pub term_lengths: Vec<u32>,
    pub term_bytes: Vec<u8>,
    pub alive: Vec<u64>,
    /// segment, row
    pub addresses: Vec<[u32; 2]>,
}

/// The type of listener addresses.
pub const IP: u32 = 6;

/// How many words a value has: an address two, of any other type, one that nobody knows too, one.
pub fn width(ty: u32) -> usize {
    if ty == IP { 2 } else { 1 }
}

/// The words of values: "a value is two 64-bit words, high word first".
pub fn words_of(ty: u32, values: &[u128]) -> Vec<u64> {
    values.iter().flat_map(|&v| [(v >> 64) as u64, v as u64].into_iter().skip(2 - width(ty))).collect()
}

/// The values of words.
pub fn values_of(ty: u32, words: &[u64]) -> Vec<u128> {
    let value = |words: &[u64]| words.iter().fold(0, |v, &word| v << 64 | word as u128);
    words.chunks(width(ty)).map(value).collect()
}

/// One segment with its runs.
#[derive(Clone, Debug, Default, PartialEq, Eq)]
pub struct Seg {
    pub ty: u32,
    pub kind: u32,
    pub rows: u32,
    pub ids: Vec<u32>,
    pub offsets: Vec<u32>,
    pub values: Vec<u128>,
    pub terms: Vec<Vec<u8>>,
    pub alive: Option<Vec<u64>>,
    /// The record's ninth number where it is a wrong one. Else it follows rows and alive set, as the
    /// lists' numbers follow the lists.
    pub wrong_count: Option<u32>,
    /// The same of the least and greatest value, which follow type and values.
    pub wrong_pair: Option<Pair>,
}

/// The sections cut into segments.
#[derive(Clone, Debug, Default, PartialEq, Eq)]
pub struct Input {
    /// 0 stacked, 1 ordered
    pub mode: u32,
    /// 255 none
    pub required: u32,
    pub segs: Vec<Seg>,
    pub addresses: Vec<[u32; 2]>,
}

impl Seg {
    pub fn is_alive(&self, row: u32) -> bool {
        match &self.alive {
            None => true,
            Some(words) => words[(row / 64) as usize] >> (row % 64) & 1 == 1,
        }
    }

    /// The ninth number as it must be: the set bits, or the rows where no alive set is given.
    pub fn right_count(&self) -> u32 {
        match &self.alive {
            None => self.rows,
            Some(words) => words.iter().map(|word| word.count_ones()).sum(),
        }
    }

    /// Stores a ninth number, be it right or wrong.
    pub fn set_count(&mut self, count: u32) {
        self.wrong_count = Some(count).filter(|&count| count != self.right_count());
    }

    /// The least and greatest value as they must be: of I64, which is signed, and of U64; else 0 and 0.
    pub fn right_pair(&self) -> Pair {
        let ends = match self.ty {
            0 => ends(self.values.iter().map(|&v| v as u64 as i64)).map(|ends| ends.map(|v| v as u64)),
            1 => ends(self.values.iter().map(|&v| v as u64)),
            _ => None,
        };
        ends.unwrap_or_default()
    }

    /// As the record has them.
    pub fn pair(&self) -> Pair {
        self.wrong_pair.unwrap_or_else(|| self.right_pair())
    }

    /// Stores a least and a greatest value, be they right or wrong.
    pub fn set_pair(&mut self, pair: Pair) {
        self.wrong_pair = Some(pair).filter(|&pair| pair != self.right_pair());
    }

    pub fn record(&self) -> Record {
        let numbers = [
            self.ty,
            self.kind,
            self.rows,
            self.ids.len() as u32,
            self.offsets.len() as u32,
            self.values.len() as u32,
            self.terms.len() as u32,
            self.alive.is_some() as u32,
            self.wrong_count.unwrap_or(self.right_count()),
        ];
        Record::new(numbers, self.pair())
    }
}

/// The least and the greatest of a list, unless it is empty.
fn ends<T: Ord + Copy>(list: impl Iterator<Item = T> + Clone) -> Option<[T; 2]> {
    Some([list.clone().min()?, list.max()?])
}

impl Input {
    pub fn sections(&self) -> Sections {
        let mut s = Sections {
            mode: self.mode,
            required: self.required,
            addresses: self.addresses.clone(),
            ..Sections::default()
        };
        for seg in &self.segs {
            s.records.push(seg.record());
            s.ids.extend(&seg.ids);
            s.offsets.extend(&seg.offsets);
            s.values.extend(words_of(seg.ty, &seg.values));
            for term in &seg.terms {
                s.term_lengths.push(term.len() as u32);
                s.term_bytes.extend(term);
            }
            s.alive.extend(seg.alive.iter().flatten());
        }
        s
    }
}

impl Sections {
    /// For sections whose lengths are as the records say (check 2 passed).
    pub fn cut(&self) -> Input {
        fn take<'a, T>(run: &mut &'a [T], n: usize) -> &'a [T] {
            let (part, rest) = run.split_at(n);
            *run = rest;
            part
        }
        let (mut ids, mut offsets, mut values) = (&self.ids[..], &self.offsets[..], &self.values[..]);
        let (mut lengths, mut bytes) = (&self.term_lengths[..], &self.term_bytes[..]);
        let mut alive = &self.alive[..];
        let mut segs = Vec::with_capacity(self.records.len());
        for r in &self.records {
            let mut seg = Seg {
                ty: r[0],
                kind: r[1],
                rows: r[2],
                ids: take(&mut ids, r[3] as usize).to_vec(),
                offsets: take(&mut offsets, r[4] as usize).to_vec(),
                values: values_of(r[0], take(&mut values, r[5] as usize * width(r[0]))),
                terms: take(&mut lengths, r[6] as usize)
                    .iter()
                    .map(|&n| take(&mut bytes, n as usize).to_vec())
                    .collect(),
                alive: (r[7] == 1).then(|| take(&mut alive, r[2].div_ceil(64) as usize).to_vec()),
                wrong_count: None,
                wrong_pair: None,
            };
            seg.set_count(r[8]);
            seg.set_pair(r.pair());
            segs.push(seg);
        }
        Input { mode: self.mode, required: self.required, segs, addresses: self.addresses.clone() }
    }

    pub fn encode(&self) -> Vec<u8> {
        let mut bytes = Vec::new();
        let mut word = |w: u64| bytes.extend(w.to_le_bytes());
        word(2);
        word(self.mode as u64);
        word(self.required as u64);
        word(self.records.len() as u64);
        self.records.iter().flat_map(Record::words).for_each(&mut word);
        word(self.ids.len() as u64);
        self.ids.iter().for_each(|&x| word(x as u64));
        word(self.offsets.len() as u64);
        self.offsets.iter().for_each(|&x| word(x as u64));
        word(self.values.len() as u64);
        self.values.iter().for_each(|&x| word(x));
        word(self.term_lengths.len() as u64);
        self.term_lengths.iter().for_each(|&x| word(x as u64));
        word(self.term_bytes.len() as u64);
        self.term_bytes.iter().for_each(|&x| word(x as u64));
        word(self.alive.len() as u64);
        self.alive.iter().for_each(|&x| word(x));
        word(self.addresses.len() as u64);
        self.addresses.iter().flatten().for_each(|&x| word(x as u64));
        bytes
    }

    /// The wire form read back. An error where the joining program answers 2 before all other
    /// checks, but for the limit of 65,536 bytes, which is the program's (table::program).
    pub fn decode(bytes: &[u8]) -> Result<Sections, &'static str> {
        const CUT: &str = "a cut input";
        const WIDE: &str = "a number too wide";
        struct Words<'a>(&'a [u8]);
        impl Words<'_> {
            fn word(&mut self) -> Result<u64, &'static str> {
                let (word, rest) = self.0.split_first_chunk::<8>().ok_or(CUT)?;
                self.0 = rest;
                Ok(u64::from_le_bytes(*word))
            }
            /// A section of `count` times `unit` words, after the count.
            fn section(&mut self, unit: u128) -> Result<Vec<u64>, &'static str> {
                let words = self.word()? as u128 * unit;
                if words * 8 > self.0.len() as u128 {
                    return Err(CUT);
                }
                (0..words).map(|_| self.word()).collect()
            }
        }
        fn narrow<T: TryFrom<u64>>(words: Vec<u64>) -> Result<Vec<T>, &'static str> {
            words.into_iter().map(|w| T::try_from(w).map_err(|_| WIDE)).collect()
        }
        let record = |words: &[u64; RECORD]| Record::from_words(*words).ok_or(WIDE);
        let mut words = Words(bytes);
        let head = words.section(1)?;
        if head.len() != 2 {
            return Err("a first count other than 2");
        }
        let head: Vec<u32> = narrow(head)?;
        let s = Sections {
            mode: head[0],
            required: head[1],
            records: {
                let words = words.section(RECORD as u128)?;
                words.as_chunks().0.iter().map(record).collect::<Result<_, _>>()?
            },
            ids: narrow(words.section(1)?)?,
            offsets: narrow(words.section(1)?)?,
            values: words.section(1)?,
            term_lengths: narrow(words.section(1)?)?,
            term_bytes: narrow(words.section(1)?)?,
            alive: words.section(1)?,
            addresses: narrow(words.section(2)?)?.as_chunks().0.to_vec(),
        };
        if !words.0.is_empty() {
            return Err("bytes after the last section");
        }
        Ok(s)
    }
}

/// A joined column with its map. Its least and greatest value are not part of what is printed.
#[derive(Clone, Debug, Default, PartialEq, Eq)]
pub struct Listing {
    pub ty: u32,
    pub class: u32,
    pub rows: u32,
    pub ids: Vec<u32>,
    pub offsets: Vec<u32>,
    pub values: Vec<u128>,
    pub terms: Vec<Vec<u8>>,
    pub map: Vec<u32>,
    pub pair: Pair,
}

/// The joiner's answer.
#[derive(Clone, Debug, PartialEq, Eq)]
pub enum Outcome {
    Accepted(Listing),
    Refused(u32),
}

impl Outcome {
    pub fn number(&self) -> u32 {
        match self {
            Outcome::Accepted(_) => 0,
            Outcome::Refused(n) => *n,
        }
    }

    /// The program's listing.
    pub fn print(&self) -> String {
        match self {
            Outcome::Refused(n) => format!("answer {n}\n"),
            Outcome::Accepted(l) => l.print(),
        }
    }
}

impl Listing {
    /// The values' words.
    pub fn words(&self) -> Vec<u64> {
        words_of(self.ty, &self.values)
    }

    /// "The listing counts addresses and prints each as its two words."
    pub fn print(&self) -> String {
        use std::fmt::{Display, Write};
        fn line<T: Display>(s: &mut String, name: &str, count: usize, elements: impl Iterator<Item = T>) {
            write!(s, "{name} {count}").unwrap();
            for element in elements {
                write!(s, " {element}").unwrap();
            }
            s.push('\n');
        }
        let term = |t: &Vec<u8>| match t.is_empty() {
            true => "-".to_string(),
            false => t.iter().map(|b| format!("{b:02x}")).collect(),
        };
        let mut s = format!("answer 0\ntype {}\nclass {}\nrows {}\n", self.ty, self.class, self.rows);
        line(&mut s, "ids", self.ids.len(), self.ids.iter());
        line(&mut s, "offsets", self.offsets.len(), self.offsets.iter());
        line(&mut s, "values", self.values.len(), self.words().iter());
        line(&mut s, "terms", self.terms.len(), self.terms.iter().map(term));
        line(&mut s, "maps", self.map.len(), self.map.iter());
        s
    }
}

/// An input from words on a command line: MODE REQUIRED SEG.. [addr=s:r,s:r..] with
/// SEG = type/kind/rows[/ids=1,2][/off=0,1][/val=7,-8][/terms=a,b (or 0x61, a lone - empty)][/alive=5]
/// [/count=1][/pair=7:9], an address by its two words, val=1:2, count the ninth number where it is a wrong
/// one, and pair the least and greatest value likewise.
pub fn from_words(words: &[String]) -> Result<Input, String> {
    fn number(text: &str) -> Result<u64, String> {
        let parsed = match (text.strip_prefix("0x"), text.starts_with('-')) {
            (Some(hex), _) => u64::from_str_radix(hex, 16).ok(),
            (None, true) => text.parse::<i64>().ok().map(|x| x as u64),
            (None, false) => text.parse().ok(),
        };
        parsed.ok_or_else(|| format!("no number: {text}"))
    }
    fn narrow(text: &str) -> Result<u32, String> {
        u32::try_from(number(text)?).map_err(|_| format!("too wide: {text}"))
    }
    fn two(text: &str) -> Result<Pair, String> {
        let (least, greatest) = text.split_once(':').ok_or_else(|| format!("no pair: {text}"))?;
        Ok([number(least)?, number(greatest)?])
    }
    fn value(ty: u32, text: &str) -> Result<u128, String> {
        let words: Vec<u64> = text.split(':').map(number).collect::<Result<_, _>>()?;
        match words.len() == width(ty) {
            true => Ok(values_of(ty, &words)[0]),
            false => Err(format!("no value of type {ty}: {text}")),
        }
    }
    fn list<T>(text: &str, f: impl Fn(&str) -> Result<T, String>) -> Result<Vec<T>, String> {
        text.split(',').filter(|t| !t.is_empty()).map(f).collect()
    }
    fn term(text: &str) -> Result<Vec<u8>, String> {
        match (text, text.strip_prefix("0x")) {
            ("-", _) => Ok(vec![]),
            (_, None) => Ok(text.as_bytes().to_vec()),
            (_, Some(hex)) => (0..hex.len() / 2)
                .map(|i| u8::from_str_radix(&hex[2 * i..2 * i + 2], 16))
                .collect::<Result<_, _>>()
                .map_err(|e| format!("{text}: {e}")),
        }
    }
    let [mode, required, rest @ ..] = words else { return Err("MODE REQUIRED SEG..".into()) };
    let mut input = Input { mode: narrow(mode)?, required: narrow(required)?, ..Input::default() };
    for word in rest {
        if let Some(pairs) = word.strip_prefix("addr=") {
            input.addresses = list(pairs, |pair| {
                let (s, r) = pair.split_once(':').ok_or_else(|| format!("no address: {pair}"))?;
                Ok([narrow(s)?, narrow(r)?])
            })?;
            continue;
        }
        let mut parts = word.split('/');
        let mut next = || narrow(parts.next().unwrap_or(""));
        let mut seg = Seg { ty: next()?, kind: next()?, rows: next()?, ..Seg::default() };
        for part in parts {
            match part.split_once('=') {
                Some(("ids", l)) => seg.ids = list(l, narrow)?,
                Some(("off", l)) => seg.offsets = list(l, narrow)?,
                Some(("val", l)) => seg.values = list(l, |v| value(seg.ty, v))?,
                Some(("terms", l)) => seg.terms = list(l, term)?,
                Some(("alive", l)) => seg.alive = Some(list(l, number)?),
                Some(("count", n)) => seg.wrong_count = Some(narrow(n)?),
                Some(("pair", p)) => seg.wrong_pair = Some(two(p)?),
                _ => return Err(format!("what is {part}?")),
            }
        }
        if let Some(count) = seg.wrong_count {
            seg.set_count(count);
        }
        if let Some(pair) = seg.wrong_pair {
            seg.set_pair(pair);
        }
        input.segs.push(seg);
    }
    Ok(input)
}

/// The same words for an input, to show it.
pub fn to_words(input: &Input) -> String {
    fn list<T>(name: &str, list: &[T], show: impl Fn(&T) -> String) -> String {
        match list.is_empty() {
            true => String::new(),
            false => format!("/{name}={}", list.iter().map(show).collect::<Vec<_>>().join(",")),
        }
    }
    let term = |t: &Vec<u8>| match t.is_empty() {
        true => "-".to_string(),
        false => t.iter().fold("0x".to_string(), |s, b| format!("{s}{b:02x}")),
    };
    let value =
        |ty: u32, v: u128| words_of(ty, &[v]).iter().map(u64::to_string).collect::<Vec<_>>().join(":");
    let mut words = format!("{} {}", input.mode, input.required);
    for s in &input.segs {
        words += &format!(" {}/{}/{}", s.ty, s.kind, s.rows);
        words += &list("ids", &s.ids, u32::to_string);
        words += &list("off", &s.offsets, u32::to_string);
        words += &list("val", &s.values, |&v| value(s.ty, v));
        words += &list("terms", &s.terms, term);
        if let Some(alive) = &s.alive {
            words += "/alive=";
            words += &alive.iter().map(u64::to_string).collect::<Vec<_>>().join(",");
        }
        if let Some(count) = s.wrong_count {
            words += &format!("/count={count}");
        }
        if let Some([least, greatest]) = s.wrong_pair {
            words += &format!("/pair={least}:{greatest}");
        }
    }
    if !input.addresses.is_empty() {
        let pairs = input.addresses.iter().map(|[s, r]| format!("{s}:{r}"));
        words += &format!(" addr={}", pairs.collect::<Vec<_>>().join(","));
    }
    words
}

#[cfg(test)]
mod tests {
    use super::*;

    fn words(list: &[u64]) -> Vec<u8> {
        list.iter().flat_map(|w| w.to_le_bytes()).collect()
    }

    #[test]
    fn high_word_first() {
        let address: std::net::Ipv6Addr = "2001:db8::1".parse().unwrap();
        let words = [0x20010DB800000000, 1];
        assert_eq!(values_of(IP, &words), [u128::from(address)]);
        assert_eq!(words_of(IP, &[u128::from(address)]), words);
        assert_eq!(values_of(1, &words), words.map(u128::from));
        assert_eq!(words_of(1, &words.map(u128::from)), words);
        // what `val=` takes
        let segment = |text: &str| from_words(&["0".into(), "255".into(), text.to_string()]);
        assert_eq!(segment("6/1/1/val=1:2").unwrap().segs[0].values, [(1 << 64) + 2]);
        assert!(segment("6/1/1/val=1").is_err());
        assert!(segment("1/1/1/val=1:2").is_err());
    }

    /// A record's eleven numbers in the order of document 02, lent and on the wire.
    #[test]
    fn records() {
        let numbers = [1, 2, 3, 4, 5, 6, 7, 8, 9];
        let record = Record::new(numbers, [10 << 32 | 11, 12 << 32 | 13]);
        assert_eq!(record.0, [1, 2, 3, 4, 5, 6, 7, 8, 9, 11, 10, 13, 12]);
        assert_eq!((record.numbers(), record.pair()), (numbers, [10 << 32 | 11, 12 << 32 | 13]));
        assert_eq!((record[0], record[8], &record[3..5]), (1, 9, &[4, 5][..]));
        assert_eq!(record.words(), [1, 2, 3, 4, 5, 6, 7, 8, 9, 10 << 32 | 11, 12 << 32 | 13]);
        assert_eq!(Record::from_words(record.words()), Some(record));
        assert_eq!(size_of::<Record>(), 13 * 4);
        let s = Sections { records: vec![record, Record::default()], ..Sections::default() };
        let bytes = s.encode();
        assert_eq!(bytes.len(), 8 * (11 + 22));
        assert_eq!(Sections::decode(&bytes).unwrap(), s);
        assert_eq!(bytes[8 * 4..8 * 15], words(&record.words())[..]);
    }

    /// The pair follows type and values, unless a wrong one is stored.
    #[test]
    fn pairs() {
        let segment = |text: &str| from_words(&["0".into(), "255".into(), text.to_string()]).unwrap();
        for (text, pair) in [
            ("0/1/3/val=1,-1,0", [u64::MAX, 1]),
            ("1/1/3/val=1,-1,0", [0, u64::MAX]),
            ("0/1/2/val=9223372036854775807,0x8000000000000000", [1 << 63, (1 << 63) - 1]),
            ("1/1/2/val=9223372036854775807,0x8000000000000000", [(1 << 63) - 1, 1 << 63]),
            ("1/1/2/val=7,5/alive=1", [5, 7]),
            ("1/2/2", [0, 0]),
            ("2/1/1/val=5", [0, 0]),
            ("4/1/1/val=1/terms=a,b", [0, 0]),
            ("5/1/1/val=1", [0, 0]),
            ("6/1/1/val=5:5", [0, 0]),
            ("7/1/1/val=5", [0, 0]),
            ("255/0/1", [0, 0]),
            ("7/1/1/val=5/pair=5:5", [5, 5]),
            ("1/1/1/val=5/pair=-1:0", [u64::MAX, 0]),
        ] {
            let input = segment(text);
            assert_eq!(input.segs[0].record().pair(), pair, "{text}");
            assert_eq!(input.sections().cut(), input, "{text}");
            let words: Vec<String> = to_words(&input).split(' ').map(String::from).collect();
            assert_eq!(from_words(&words).unwrap(), input, "{text}");
        }
        assert_eq!(segment("1/1/1/val=5/pair=5:5").segs[0].wrong_pair, None);
    }

    #[test]
    fn refused_wire_forms() {
        let empty = words(&[2, 0, 255, 0, 0, 0, 0, 0, 0, 0, 0]);
        assert_eq!(Sections::decode(&empty).unwrap(), Sections { required: 255, ..Sections::default() });
        for cut in 0..empty.len() {
            assert_eq!(Sections::decode(&empty[..cut]), Err("a cut input"));
        }
        for more in 1..20 {
            let longer = [&empty[..], &vec![0; more]].concat();
            assert_eq!(Sections::decode(&longer), Err("bytes after the last section"));
        }
        for count in [0, 1, 3, 5] {
            let mut w = vec![0; 20];
            w[0] = count;
            assert_eq!(Sections::decode(&words(&w)), Err("a first count other than 2"));
        }
        // Counts whose product with 8, 11, 16 or 88 wraps at 2^64, eleven times the last but one to 1.
        for place in 3..11 {
            for count in [1, 1 << 58, 1 << 60, 1 << 61, 1 << 63, 0x2E8BA2E8BA2E8BA3, u64::MAX] {
                let mut w = [2, 0, 255, 0, 0, 0, 0, 0, 0, 0, 0];
                w[place] = count;
                assert_eq!(Sections::decode(&words(&w)), Err("a cut input"), "{place} {count}");
            }
        }
        let wide = |w: &[u64]| Sections::decode(&words(w)) == Err("a number too wide");
        assert!(wide(&[2, 1 << 32, 255, 0, 0, 0, 0, 0, 0, 0, 0]));
        assert!(!wide(&[2, (1 << 32) - 1, 255, 0, 0, 0, 0, 0, 0, 0, 0]));
        assert!(wide(&[2, 0, 1 << 32, 0, 0, 0, 0, 0, 0, 0, 0]));
        // A record's words, of which the first nine have 32 bits; one less or more of them.
        for i in 0..11 {
            let mut w = vec![0; 22];
            w[..4].copy_from_slice(&[2, 0, 255, 1]);
            w[4 + i] = (1 << 32) - 1;
            assert!(Sections::decode(&words(&w)).is_ok());
            w[4 + i] += 1;
            assert_eq!(wide(&w), i < 9);
            w[4 + i] = u64::MAX;
            assert_eq!(wide(&w), i < 9);
        }
        for all in [20, 21, 23] {
            let mut w = vec![0; all];
            w[..4].copy_from_slice(&[2, 0, 255, 1]);
            assert!(Sections::decode(&words(&w)).is_err(), "{all}");
        }
        assert!(wide(&[2, 0, 255, 0, 1, 1 << 32, 0, 0, 0, 0, 0, 0]));
        assert!(wide(&[2, 0, 255, 0, 0, 1, 1 << 32, 0, 0, 0, 0, 0]));
        assert!(!wide(&[2, 0, 255, 0, 0, 0, 1, u64::MAX, 0, 0, 0, 0]));
        assert!(wide(&[2, 0, 255, 0, 0, 0, 0, 1, 1 << 32, 0, 0, 0]));
        assert!(wide(&[2, 0, 255, 0, 0, 0, 0, 0, 1, 256, 0, 0]));
        assert!(!wide(&[2, 0, 255, 0, 0, 0, 0, 0, 1, 255, 0, 0]));
        assert!(!wide(&[2, 0, 255, 0, 0, 0, 0, 0, 0, 1, u64::MAX, 0]));
        assert!(wide(&[2, 0, 255, 0, 0, 0, 0, 0, 0, 0, 1, 1 << 32, 0]));
        assert!(wide(&[2, 0, 255, 0, 0, 0, 0, 0, 0, 0, 1, 0, 1 << 32]));
    }
}
