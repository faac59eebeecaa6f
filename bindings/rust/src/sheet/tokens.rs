//! A line's words and quoted texts.

#[derive(Clone, Debug, PartialEq, Eq)]
pub enum Token<'a> {
    Word(&'a str),
    /// A quoted text's bytes.
    Text(Vec<u8>),
}

/// The tokens of a line outside its comment. A comment ends with a carriage return too: in a file
/// whose lines end with nothing else, it would hide all that follows.
pub fn tokens(line: &str) -> impl Iterator<Item = Result<Token<'_>, String>> {
    let mut rest = line;
    std::iter::from_fn(move || {
        rest = rest.trim_start();
        while rest.starts_with('#') {
            rest = rest.find('\r').map_or("", |end| rest[end..].trim_start());
        }
        match rest.chars().next()? {
            '"' => Some(quoted(&mut rest).map(Token::Text)),
            _ => {
                let ends = |c: char| c.is_whitespace() || c == '#' || c == '"';
                let (word, behind) = rest.split_at(rest.find(ends).unwrap_or(rest.len()));
                rest = behind;
                Some(Ok(Token::Word(word)))
            }
        }
    })
}

/// Reads a quoted text, at whose first quote `rest` begins.
fn quoted(rest: &mut &str) -> Result<Vec<u8>, String> {
    let mut bytes = Vec::new();
    let mut chars = rest[1..].chars();
    loop {
        match chars.next() {
            None => {
                *rest = "";
                return Err("a quoted text has no end in its line".to_string());
            }
            Some('"') => break,
            Some('\\') => bytes.push(escaped(&mut chars)?),
            Some(c) => bytes.extend_from_slice(c.encode_utf8(&mut [0; 4]).as_bytes()),
        }
    }
    *rest = chars.as_str();
    match rest.chars().next() {
        Some(c) if !c.is_whitespace() && c != '#' => Err(format!(
            "a space is missing between a quoted text's end and '{c}'"
        )),
        _ => Ok(bytes),
    }
}

/// The byte that is meant after a backslash.
fn escaped(chars: &mut std::str::Chars<'_>) -> Result<u8, String> {
    match chars.next() {
        Some('n') => Ok(b'\n'),
        Some('r') => Ok(b'\r'),
        Some('t') => Ok(b'\t'),
        Some(c @ ('"' | '\\')) => Ok(c as u8),
        Some('x') => {
            let digits = [chars.next(), chars.next()];
            let [Some(high), Some(low)] = digits.map(|c| c.and_then(|c| c.to_digit(16))) else {
                return Err("\\x wants two hexadecimal digits after it".to_string());
            };
            Ok((16 * high + low) as u8)
        }
        Some(c) => Err(format!("\\{c} is none of \\\" \\\\ \\n \\r \\t \\xHH")),
        None => Err("a quoted text has no end in its line".to_string()),
    }
}

#[cfg(test)]
mod tests {
    use super::*;

    fn all(line: &str) -> Result<Vec<Token<'_>>, String> {
        tokens(line).collect()
    }

    #[test]
    fn words_texts_and_comments() {
        let text = |t: &str| Token::Text(t.as_bytes().to_vec());
        let words = all("  ids 1\t2# 3 \"4\"\r\n").unwrap();
        assert_eq!(
            words,
            [Token::Word("ids"), Token::Word("1"), Token::Word("2")]
        );
        assert_eq!(all("# 1\r# 2\r3 # 4\r\n").unwrap(), [Token::Word("3")]);
        let terms = all("terms \"\" \"a # b\" \"Bj\u{f6}rk\"#").unwrap();
        let expected = [
            Token::Word("terms"),
            text(""),
            text("a # b"),
            text("Bj\u{f6}rk"),
        ];
        assert_eq!(terms, expected);
        let escapes = all(r#""\"\\\n\r\t\xff""#).unwrap();
        assert_eq!(escapes, [Token::Text(b"\"\\\n\r\t\xff".to_vec())]);
    }

    #[test]
    fn faults() {
        for line in [
            "\"a",
            "\"a\\",
            "\"\\q\"",
            "\"\\x1\"",
            "\"\\x\u{e9}\u{e9}\"",
            "\"a\"b",
        ] {
            assert!(all(line).is_err(), "{line}");
        }
    }
}
