//! Words of a command line and of an answer line.
//!
//! A text is the hexadecimal of its bytes, `.` if it is empty, `-` if there is
//! none. In place of hexadecimal a text may stand in quotation marks, with
//! `\xHH` for any byte and `\\`, `\"` for these two. `*` and a number after a
//! text repeat it, and `+` joins two. A table is `-` if empty, else
//! `name:value` joined by commas, both texts.

/// Cuts a line at its spaces; those between quotation marks do not count.
pub fn words(line: &str) -> Vec<String> {
    let mut words = vec![String::new()];
    let mut quoted = false;
    let mut escaped = false;
    for c in line.chars() {
        if c == ' ' && !quoted {
            words.push(String::new());
            continue;
        }
        if c == '"' && !escaped {
            quoted = !quoted;
        }
        escaped = quoted && c == '\\' && !escaped;
        words.last_mut().unwrap().push(c);
    }
    words.retain(|word| !word.is_empty());
    words
}

fn unquote(inside: &str) -> Result<Vec<u8>, String> {
    let mut bytes = Vec::new();
    let mut rest = inside.as_bytes();
    while let [first, tail @ ..] = rest {
        rest = tail;
        if *first != b'\\' {
            bytes.push(*first);
            continue;
        }
        match tail {
            [b'x', high, low, ..] => {
                let digits = [*high, *low];
                let digits = std::str::from_utf8(&digits).map_err(|e| e.to_string())?;
                bytes.push(u8::from_str_radix(digits, 16).map_err(|e| e.to_string())?);
                rest = &tail[3..];
            }
            [c @ (b'\\' | b'"'), ..] => {
                bytes.push(*c);
                rest = &tail[1..];
            }
            _ => return Err("a backslash with nothing known after it".to_string()),
        }
    }
    Ok(bytes)
}

fn text_part(word: &str) -> Result<Vec<u8>, String> {
    if let Some(rest) = word.strip_prefix('"') {
        return unquote(rest.strip_suffix('"').ok_or("no closing quotation mark")?);
    }
    if word.len() % 2 != 0 || !word.bytes().all(|b| b.is_ascii_hexdigit()) {
        return Err(format!("no text: {word}"));
    }
    Ok((0..word.len() / 2)
        .map(|i| u8::from_str_radix(&word[2 * i..2 * i + 2], 16).unwrap())
        .collect())
}

/// A text that is there.
pub fn text(word: &str) -> Result<String, String> {
    let mut bytes = Vec::new();
    if word != "." {
        for part in cut(word, '+') {
            match cut(part, '*')[..] {
                [once] => bytes.extend(text_part(once)?),
                [once, times] => {
                    let times = times.parse().map_err(|_| format!("no number: {times}"))?;
                    bytes.extend(text_part(once)?.repeat(times));
                }
                _ => return Err(format!("no text: {part}")),
            }
        }
    }
    String::from_utf8(bytes).map_err(|_| "bytes that are no Unicode text".to_string())
}

/// A text or none.
pub fn text_or_none(word: &str) -> Result<Option<String>, String> {
    if word == "-" {
        Ok(None)
    } else {
        text(word).map(Some)
    }
}

/// Cuts at a byte that stands outside quotation marks.
fn cut(word: &str, at: char) -> Vec<&str> {
    let mut parts = Vec::new();
    let mut start = 0;
    let mut quoted = false;
    let mut escaped = false;
    for (i, c) in word.char_indices() {
        if c == '"' && !escaped {
            quoted = !quoted;
        }
        escaped = quoted && c == '\\' && !escaped;
        if c == at && !quoted {
            parts.push(&word[start..i]);
            start = i + 1;
        }
    }
    parts.push(&word[start..]);
    parts
}

pub fn table(word: &str) -> Result<Vec<(String, String)>, String> {
    if word == "-" {
        return Ok(Vec::new());
    }
    cut(word, ',')
        .into_iter()
        .map(|entry| match cut(entry, ':')[..] {
            [name, value] => Ok((text(name)?, text(value)?)),
            _ => Err(format!("no entry of a table: {entry}")),
        })
        .collect()
}

/// Equal bytes in a row from this number on are shown once, with their count.
const LONG_RUN: usize = 32;

fn show_plain(text: &str) -> String {
    let mut parts = Vec::new();
    let mut short = String::new();
    for run in text.as_bytes().chunk_by(|a, b| a == b) {
        let once = match run[0] {
            b @ (b'"' | b'\\') => format!("\\{}", b as char),
            b @ 0x20..=0x7e => (b as char).to_string(),
            b => format!("\\x{b:02X}"),
        };
        if run.len() < LONG_RUN {
            short.push_str(&once.repeat(run.len()));
            continue;
        }
        if !short.is_empty() {
            parts.push(format!("\"{short}\""));
            short.clear();
        }
        parts.push(format!("\"{once}\"*{}", run.len()));
    }
    if !short.is_empty() || parts.is_empty() {
        parts.push(format!("\"{short}\""));
    }
    parts.join("+")
}

pub fn show(text: &str, plain: bool) -> String {
    if plain {
        show_plain(text)
    } else if text.is_empty() {
        ".".to_string()
    } else {
        text.bytes().map(|b| format!("{b:02x}")).collect()
    }
}

pub fn show_or_none(text: Option<&str>, plain: bool) -> String {
    text.map_or("-".to_string(), |t| show(t, plain))
}

pub fn show_table<'a>(
    entries: impl IntoIterator<Item = (&'a str, &'a str)>,
    plain: bool,
) -> String {
    let shown: Vec<String> = entries
        .into_iter()
        .map(|(k, v)| format!("{}:{}", show(k, plain), show(v, plain)))
        .collect();
    if shown.is_empty() {
        "-".to_string()
    } else {
        shown.join(",")
    }
}
