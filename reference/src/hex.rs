//! Bytes as upper-case hex digits.

/// Two digits for each byte.
pub fn digits_of(bytes: &[u8]) -> String {
    bytes.iter().map(|byte| format!("{byte:02X}")).collect()
}

/// The bytes of digits that `digits_of` wrote; what is no pair of digits is left out.
pub fn bytes_of(digits: &str) -> Vec<u8> {
    (0..digits.len() / 2)
        .filter_map(|pair| digits.get(2 * pair..2 * pair + 2))
        .filter_map(|pair| u8::from_str_radix(pair, 16).ok())
        .collect()
}

/// Bytes as one word of a line: their digits, `-` for none.
pub fn word_of(bytes: &[u8]) -> String {
    match bytes {
        [] => "-".to_string(),
        bytes => digits_of(bytes),
    }
}
