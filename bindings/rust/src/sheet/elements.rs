//! Numbers, values, terms and addresses as they are written in a sheet.
use crate::codes::{ColumnType, NO_TYPE, kind, mode};
use crate::ip;
use crate::sections::Address;
use std::net::{IpAddr, Ipv6Addr};

/// A number in decimal, or in hexadecimal after 0x.
pub fn number<T: TryFrom<u64>>(word: &str) -> Result<T, String> {
    let parsed = match word.strip_prefix("0x") {
        Some(digits) => hexadecimal(digits).and_then(|number| u64::try_from(number).ok()),
        None => word.parse().ok(),
    };
    let most = u64::MAX >> (64 - 8 * size_of::<T>());
    parsed
        .and_then(|number| T::try_from(number).ok())
        .ok_or_else(|| format!("'{word}' is no number from 0 to {most}"))
}

fn hexadecimal(digits: &str) -> Option<u128> {
    let plain = digits.bytes().all(|byte| byte.is_ascii_hexdigit());
    u128::from_str_radix(digits, 16).ok().filter(|_| plain)
}

/// The two words of a value of type IpAddr: an IPv6 address, an IPv4 address, or the 128 bits in
/// hexadecimal after 0x.
pub fn ip_addr(word: &str) -> Result<[u64; 2], String> {
    let parsed = match word.strip_prefix("0x") {
        Some(digits) => hexadecimal(digits).map(|bits| Ipv6Addr::from_bits(bits).into()),
        None => word.parse::<IpAddr>().ok(),
    };
    parsed
        .map(ip::words_of)
        .ok_or_else(|| format!("'{word}' is no IPv6 address and no IPv4 address"))
}

/// The word of a value that has one, or of a least or greatest value. A type that is not known has
/// plain numbers, and so has an IpAddr, whose values are of two words.
pub fn value(word: &str, typ: Option<ColumnType>) -> Result<u64, String> {
    if word.starts_with("0x") {
        return number(word);
    }
    match (typ, word) {
        (Some(ColumnType::I64 | ColumnType::DateTime), _) => {
            let parsed = word.parse::<i64>();
            parsed
                .map(|v| v as u64)
                .map_err(|_| format!("'{word}' is no number from {} to {}", i64::MIN, i64::MAX))
        }
        (Some(ColumnType::F64), _) => double(word).map(f64::to_bits),
        (Some(ColumnType::Bool), "false") => Ok(0),
        (Some(ColumnType::Bool), "true") => Ok(1),
        (Some(ColumnType::Bool), _) => {
            number(word).map_err(|_| format!("'{word}' is neither true nor false"))
        }
        (Some(ColumnType::Bytes | ColumnType::Str), _) => {
            number(word).map_err(|_| format!("'{word}' is neither an ordinal nor a quoted text"))
        }
        _ => number(word),
    }
}

/// A number that no double comes near must not become infinite unsaid.
fn double(word: &str) -> Result<f64, String> {
    let parsed: f64 = word
        .parse()
        .map_err(|_| format!("'{word}' is no decimal number"))?;
    match parsed.is_infinite() && word.contains(|c: char| c.is_ascii_digit()) {
        true => Err(format!("'{word}' is larger than any double but inf")),
        false => Ok(parsed),
    }
}

/// A value of these words, as [`value`] or [`ip_addr`] reads it.
pub fn value_text(words: &[u64], typ: Option<ColumnType>) -> String {
    let value = words[0];
    match (typ, value) {
        (Some(ColumnType::IpAddr), high) => ip::ip_addr(high, words[1]).to_string(),
        (Some(ColumnType::I64 | ColumnType::DateTime), _) => (value as i64).to_string(),
        (Some(ColumnType::F64), bits) if !f64::from_bits(bits).is_nan() => {
            format!("{:?}", f64::from_bits(bits))
        }
        (Some(ColumnType::F64), bits) => format!("{bits:#x}"),
        (Some(ColumnType::Bool), 0) => "false".to_string(),
        (Some(ColumnType::Bool), 1) => "true".to_string(),
        _ => value.to_string(),
    }
}

/// A least or greatest value, as [`value`] reads it.
pub fn word_text(word: u64, typ: Option<ColumnType>) -> String {
    match typ {
        Some(ColumnType::IpAddr) => word.to_string(),
        typ => value_text(&[word], typ),
    }
}

/// Bytes in hexadecimal after 0x: two digits each.
pub fn hex_bytes(word: &str) -> Result<Vec<u8>, String> {
    let digits = word.strip_prefix("0x").unwrap_or_default();
    let bytes = digits.as_bytes().chunks(2).map(|pair| match pair {
        [high, low] => {
            let digit = |byte: u8| char::from(byte).to_digit(16);
            Some((16 * digit(*high)? + digit(*low)?) as u8)
        }
        _ => None,
    });
    let bytes: Option<Vec<u8>> = bytes.collect();
    bytes.filter(|bytes| !bytes.is_empty()).ok_or_else(|| {
        format!("'{word}' is neither a quoted text nor bytes in hexadecimal as 0x6162")
    })
}

/// A term as a quoted text if it is one, else in hexadecimal.
pub fn term_text(term: &[u8]) -> String {
    let Ok(text) = str::from_utf8(term) else {
        return hex_text(term);
    };
    let mut quoted = String::from("\"");
    for c in text.chars() {
        match c {
            '"' | '\\' => quoted.extend(['\\', c]),
            '\n' => quoted.push_str("\\n"),
            '\r' => quoted.push_str("\\r"),
            '\t' => quoted.push_str("\\t"),
            // Other control characters could disturb the screen.
            c if c.is_control() => return hex_text(term),
            c => quoted.push(c),
        }
    }
    quoted.push('"');
    quoted
}

pub fn hex_text(bytes: &[u8]) -> String {
    use std::fmt::Write;
    bytes.iter().fold("0x".to_string(), |mut text, byte| {
        let _ = write!(text, "{byte:02x}");
        text
    })
}

/// A row's address as SEGMENT:ROW. A listener's address is none, which is said where the two are
/// mistaken for each other.
pub fn address(word: &str) -> Result<Address, String> {
    row_address(word).map_err(|text| match word.parse::<IpAddr>() {
        Ok(_) => format!(
            "'{word}' is a listener's address, which stands among the values; the address of a \
             row is written SEGMENT:ROW, as 0:3"
        ),
        Err(_) => text,
    })
}

fn row_address(word: &str) -> Result<Address, String> {
    let (segment, row) = word
        .split_once(':')
        .ok_or_else(|| format!("'{word}' is no address, which is written SEGMENT:ROW, as 0:3"))?;
    let part = |digits| number(digits).map_err(|text| format!("'{word}': {text}"));
    Ok(Address {
        segment: part(segment)?,
        row: part(row)?,
    })
}

pub fn mode(word: &str) -> Result<u32, String> {
    named(word, &mode::NAMES)
        .ok_or_else(|| format!("'{word}' is no mode: the modes are stacked and ordered"))
}

pub fn mode_text(code: u32) -> String {
    name(code, &mode::NAMES)
}

pub fn kind(word: &str) -> Result<u32, String> {
    named(word, &kind::NAMES).ok_or_else(|| {
        format!(
            "'{word}' is no kind: the kinds are {}",
            kind::NAMES.join(", ")
        )
    })
}

pub fn kind_text(code: u32) -> String {
    name(code, &kind::NAMES)
}

/// The number of a name, or a number as it stands.
fn named(word: &str, names: &[&str]) -> Option<u32> {
    let place = names
        .iter()
        .position(|name| name.eq_ignore_ascii_case(word));
    place
        .map(|place| place as u32)
        .or_else(|| number(word).ok())
}

fn name(code: u32, names: &[&str]) -> String {
    names
        .get(code as usize)
        .map_or(code.to_string(), |name| name.to_string())
}

pub fn typ(word: &str) -> Result<u32, String> {
    if word.eq_ignore_ascii_case("none") {
        return Ok(NO_TYPE);
    }
    let known = ColumnType::ALL
        .into_iter()
        .find(|t| t.name().eq_ignore_ascii_case(word));
    known
        .map(ColumnType::code)
        .or_else(|| number(word).ok())
        .ok_or_else(|| {
            let names = ColumnType::ALL.map(ColumnType::name).join(", ");
            format!("'{word}' is no type: the types are {names}, none")
        })
}

pub fn typ_text(code: u32) -> String {
    match ColumnType::from_code(code) {
        Some(typ) => typ.name().to_string(),
        None if code == NO_TYPE => "none".to_string(),
        None => code.to_string(),
    }
}

#[cfg(test)]
mod tests {
    use super::*;

    #[test]
    fn values_come_back() {
        let words = [
            0,
            1,
            2,
            1 << 63,
            i64::MAX as u64,
            u64::MAX,
            0x7ff0000000000000,
        ];
        let more = [
            0x7ff8000000000001,
            0x3ff8000000000000,
            0x8000000000000000,
            1,
        ];
        for word in words.into_iter().chain(more) {
            for typ in [0, 1, 2, 3, 4, 5, 6, 7, 8, 255].map(ColumnType::from_code) {
                assert_eq!(value(&word_text(word, typ), typ), Ok(word), "{typ:?}");
            }
            for low in words {
                let text = value_text(&[word, low], Some(ColumnType::IpAddr));
                assert_eq!(ip_addr(&text), Ok([word, low]), "{text}");
            }
        }
    }

    #[test]
    fn listener_addresses() {
        let high = 0x2001_0db8_0000_0000;
        assert_eq!(ip_addr("2001:db8::1"), Ok([high, 1]));
        assert_eq!(ip_addr("2001:0DB8:0:0:0:0:0:1"), Ok([high, 1]));
        assert_eq!(ip_addr("0x20010db8000000000000000000000001"), Ok([high, 1]));
        assert_eq!(ip_addr("::"), Ok([0, 0]));
        // An IPv4 address, the mapped one, and the compatible one, which is another.
        assert_eq!(ip_addr("192.0.2.7"), Ok([0, 0xffff_c000_0207]));
        assert_eq!(ip_addr("::ffff:192.0.2.7"), Ok([0, 0xffff_c000_0207]));
        assert_eq!(ip_addr("::192.0.2.7"), Ok([0, 0xc000_0207]));
        let words = [
            "",
            "0:3",
            "7",
            "::1/64",
            "[::1]",
            "fe80::1%eth0",
            "192.0.2",
            "192.0.2.256",
            "0x",
            "0x+1",
            "0x100000000000000000000000000000000",
        ];
        for word in words {
            assert!(ip_addr(word).is_err(), "{word}");
        }
    }

    /// Neither can be read as the other.
    #[test]
    fn addresses_of_rows() {
        assert_eq!(address("0:3"), Ok(Address { segment: 0, row: 3 }));
        for word in ["::3", "2001:db8::1", "0:0:0:0:0:0:0:3", "192.0.2.7"] {
            let text = address(word).unwrap_err();
            assert!(text.contains("a listener's address"), "{text}");
        }
        assert!(address("3").unwrap_err().contains("is no address"));
        assert!(address("0:3:1").unwrap_err().contains("is no number"));
    }

    #[test]
    fn doubles() {
        let f64s = Some(ColumnType::F64);
        assert_eq!(value("-inf", f64s), Ok(f64::NEG_INFINITY.to_bits()));
        assert_eq!(value("-0.0", f64s), Ok(1 << 63));
        assert_eq!(value("NaN", f64s), Ok(0x7ff8000000000000));
        for word in ["1e309", "-2e308", "", "1,5"] {
            assert!(value(word, f64s).is_err(), "{word}");
        }
    }

    #[test]
    fn terms_come_back() {
        for term in [
            &b"a"[..],
            b"",
            b"\"\\\n",
            b"\x00",
            b"\xff\xfe",
            "Bj\u{f6}rk".as_bytes(),
        ] {
            let text = term_text(term);
            match super::super::tokens::tokens(&text).next() {
                Some(Ok(super::super::tokens::Token::Text(bytes))) => assert_eq!(bytes, term),
                _ => assert_eq!(hex_bytes(&text).as_deref(), Ok(term)),
            }
        }
        for word in ["", "0x", "0x1", "61", "0x6g", "0x+1"] {
            assert!(hex_bytes(word).is_err(), "{word}");
        }
    }

    #[test]
    fn numbers() {
        assert_eq!(number::<u32>("4294967295"), Ok(u32::MAX));
        assert_eq!(number::<u8>("0xff"), Ok(255));
        for word in ["4294967296", "-1", "1.0", "0x", "0x+1", "", "0x100000000"] {
            assert!(number::<u32>(word).is_err(), "{word}");
        }
    }
}
