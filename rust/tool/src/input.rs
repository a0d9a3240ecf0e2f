//! Days, books and changes from files and from standard input.

use std::fs::{self, File};
use std::io::{self, BufRead, BufReader, Read};
use std::path::Path;

use events::{Book, Change, Wrong};

use crate::failure::Failure;

/// All bytes of the file; `-` is standard input.
pub fn read(file: &Path) -> Result<Vec<u8>, Failure> {
    let mut bytes = Vec::new();
    let done = match file.to_str() {
        Some("-") => io::stdin().read_to_end(&mut bytes).map(|_| bytes),
        _ => fs::read(file),
    };
    done.map_err(|error| unreadable(file, error))
}

/// The events of a day, text or bytes. In a text every line is one; in bytes an
/// unknown kind, or an event cut short, takes all the rest and so ends the day.
pub fn day(file: &Path) -> Result<Vec<Vec<u8>>, Failure> {
    let day = read(file)?;
    if is_bytes(&day) {
        Ok(events::split(&day).map(<[u8]>::to_vec).collect())
    } else {
        events_of_text(file, &day)
    }
}

/// The bytes of a text, an event a line.
pub fn events_of_text(file: &Path, bytes: &[u8]) -> Result<Vec<Vec<u8>>, Failure> {
    events::text(bytes)
        .and_then(events::encode_each)
        .map_err(|wrong| bad_line(file, wrong))
}

/// The book of a text, an order a line.
pub fn book(file: &Path) -> Result<Book, Failure> {
    let bytes = read(file)?;
    events::text(&bytes)
        .and_then(events::book)
        .map_err(|wrong| bad_line(file, wrong))
}

/// The changes of a text, a line a change, each read when it is asked for.
pub fn changes(file: &Path) -> Result<impl Iterator<Item = Result<Change, Failure>>, Failure> {
    let text: Box<dyn BufRead> = match file.to_str() {
        Some("-") => Box::new(io::stdin().lock()),
        _ => {
            let file = File::open(file).map_err(|error| unreadable(file, error))?;
            Box::new(BufReader::new(file))
        }
    };
    let lines = text.split(b'\n').zip(1..);
    Ok(lines.filter_map(move |(bytes, line)| match bytes {
        Ok(bytes) => change(&bytes, line)
            .map_err(|wrong| bad_line(file, wrong))
            .transpose(),
        Err(error) => Some(Err(unreadable(file, error))),
    }))
}

fn change(bytes: &[u8], line: usize) -> Result<Option<Change>, Wrong> {
    let text = events::text(bytes).map_err(|wrong| Wrong { line, ..wrong })?;
    events::change(text, line)
}

fn unreadable(file: &Path, error: io::Error) -> Failure {
    Failure::Input(format!("{}: {error}", name(file)))
}

/// File, line and reason.
pub fn bad_line(file: &Path, wrong: Wrong) -> Failure {
    let Wrong { line, reason } = wrong;
    Failure::Input(format!("{}:{line}: {reason}", name(file)))
}

/// A kind of event is a control character, and no text begins with one but for
/// white space. Kind 9, and 10 to 12 of paper 02, are white space too: there another
/// control character tells, such as the high byte of a security.
fn is_bytes(day: &[u8]) -> bool {
    let white = |byte: &u8| byte.is_ascii_whitespace() || *byte == b'\x0b';
    let begins = day.first().is_some_and(u8::is_ascii_control);
    begins
        && day
            .iter()
            .any(|byte| byte.is_ascii_control() && !white(byte))
}

/// As messages name the file.
pub fn name(file: &Path) -> String {
    match file.to_str() {
        Some("-") => "standard input".into(),
        _ => file.display().to_string(),
    }
}

#[cfg(test)]
mod tests {
    use super::*;

    #[test]
    fn text_and_bytes() {
        let texts: [&[u8]; 6] = [
            b"",
            b"session open\n",
            b"# a day\n\nsession open",
            b"\n\tsession open\r\n",
            "\n# ฿\n".as_bytes(),
            b"session \x07",
        ];
        let bytes: [&[u8]; 7] = [
            &[2, 2],
            &[0],
            // a rest, whole or cut: 8 is no white space
            &[8, b'a', b'b', 5, 0, 0, 0, 0xa1, 0x13, 0, 0],
            &[8, b'a', b'b'],
            // figures, whole or cut, and paper 02's kind 10 for a security with a letter's number
            &[9, b'a', 0, 0, 0, 0, 0, 232, 3, 0, 0, b' ', b' ', b' ', b' '],
            &[9, 0, 0],
            &[10, b'a', 0, 100, 0, 0],
        ];
        assert!(texts.iter().all(|day| !is_bytes(day)));
        assert!(bytes.iter().all(|day| is_bytes(day)));
    }
}
