//! The plan's lines: "One frame a line: upper-case hex digits, LF."

/// The bytes that a line stands for; none if it has no LF, an odd number of digits, or anything but digits.
pub fn bytes_of(line: &[u8]) -> Option<Vec<u8>> {
    let digits: Option<Vec<u8>> = line.strip_suffix(b"\n")?.iter().map(digit).collect();
    let pairs = digits?;
    let is_even = pairs.len() % 2 == 0;
    is_even.then(|| pairs.chunks(2).map(|pair| pair[0] * 16 + pair[1]).collect())
}

fn digit(byte: &u8) -> Option<u8> {
    match byte {
        b'0'..=b'9' => Some(byte - b'0'),
        b'A'..=b'F' => Some(byte - b'A' + 10),
        _ => None,
    }
}
