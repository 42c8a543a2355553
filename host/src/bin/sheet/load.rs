//! A file of words or of text, told apart by its bytes.

use std::io::Read;
use std::path::Path;

/// A file in one of its two forms.
pub enum Form {
    Words(Vec<u32>),
    Text(String),
}

pub fn load(file: &Path) -> Result<Form, String> {
    let mut bytes = Vec::new();
    let read = if file == Path::new("-") {
        std::io::stdin().read_to_end(&mut bytes)
    } else {
        std::fs::File::open(file).and_then(|mut f| f.read_to_end(&mut bytes))
    };
    read.map_err(|e| e.to_string())?;
    form(bytes)
}

/// Only words have a byte 0, and every sheet's words have one: the first word is 2.
fn form(bytes: Vec<u8>) -> Result<Form, String> {
    if bytes.is_empty() {
        return Err("expected a sheet, found nothing".to_string());
    }
    if let Some(found) = other_encoding(&bytes) {
        return Err(format!("expected words or text in UTF-8, found {found}"));
    }
    if bytes.contains(&0) {
        return Ok(Form::Words(words(&bytes)));
    }
    String::from_utf8(bytes).map(Form::Text).map_err(|error| {
        let (good, rest) = error.as_bytes().split_at(error.utf8_error().valid_up_to());
        let line = 1 + good.iter().filter(|&&byte| byte == b'\n').count();
        format!("line {line}: expected text in UTF-8, found the byte {:#04x}", rest[0])
    })
}

/// Text of another encoding than UTF-8, by what it begins with. No sheet's words begin so.
fn other_encoding(bytes: &[u8]) -> Option<&'static str> {
    let letter = |byte: u8| byte.is_ascii_graphic() || byte.is_ascii_whitespace();
    match *bytes {
        [0xef, 0xbb, 0xbf, ..] => Some("a byte order mark (save the text without one)"),
        [0xff, 0xfe, ..] | [0xfe, 0xff, ..] => {
            Some("the byte order mark of UTF-16 (save the text as UTF-8)")
        }
        [a, 0, b, 0, ..] | [0, a, 0, b, ..] if letter(a) && letter(b) => {
            Some("UTF-16 (save the text as UTF-8)")
        }
        _ => None,
    }
}

/// A cut last word is filled up with zeros.
fn words(bytes: &[u8]) -> Vec<u32> {
    let word = |part: &[u8]| {
        let mut four = [0; 4];
        four[..part.len()].copy_from_slice(part);
        u32::from_le_bytes(four)
    };
    bytes.chunks(4).map(word).collect()
}
