//! Bytes as the rest of a line that can be read: 20 to 7E stand for themselves, but for `\`; any other is `\` and
//! its two hex digits.

const MARK: char = '\\';

pub fn shown(bytes: &[u8]) -> String {
    bytes.iter().map(|&byte| shown_byte(byte)).collect()
}

fn shown_byte(byte: u8) -> String {
    match char::from(byte) {
        mark if mark == MARK => format!("{MARK}{byte:02X}"),
        plain if (' '..='~').contains(&plain) => plain.to_string(),
        _ => format!("{MARK}{byte:02X}"),
    }
}

/// The bytes that are so shown; none if they are shown otherwise.
pub fn bytes_of(text: &str) -> Option<Vec<u8>> {
    let mut pieces = text.split(MARK);
    let mut bytes = pieces.next()?.as_bytes().to_vec();
    for piece in pieces {
        let (digits, plain) = (piece.get(..2)?, piece.get(2..)?);
        bytes.push(u8::from_str_radix(digits, 16).ok()?);
        bytes.extend_from_slice(plain.as_bytes());
    }
    (shown(&bytes) == text).then_some(bytes)
}
