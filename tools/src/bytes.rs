//! Bytes as hex and as text, numbers as bytes.

pub fn to_hex(bytes: &[u8]) -> String {
    const DIGITS: &[u8; 16] = b"0123456789abcdef";
    let mut text = String::with_capacity(2 * bytes.len());
    for byte in bytes {
        text.push(char::from(DIGITS[usize::from(byte >> 4)]));
        text.push(char::from(DIGITS[usize::from(byte & 15)]));
    }
    text
}

/// The value of a hex digit in either case.
pub fn digit(letter: u8) -> Option<u8> {
    char::from(letter).to_digit(16).map(|value| value as u8)
}

/// Text in quotes. What is not a plain character from blank to ~ is written as \x and two hex digits, so that nothing in it can act on a terminal.
pub fn quoted(bytes: &[u8]) -> String {
    let mut text = String::from("\"");
    for &byte in bytes {
        match byte {
            b'"' | b'\\' => {
                text.push('\\');
                text.push(char::from(byte));
            }
            b' '..=b'~' => text.push(char::from(byte)),
            _ => text.push_str(&format!("\\x{byte:02x}")),
        }
    }
    text.push('"');
    text
}

/// Text as it was typed; what is not a plain character from blank to ~ is written as \x and two hex digits.
pub fn plain(bytes: &[u8]) -> String {
    let letter = |&byte: &u8| match byte {
        b' '..=b'~' => char::from(byte).to_string(),
        _ => format!("\\x{byte:02x}"),
    };
    bytes.iter().map(letter).collect()
}

/// A number from its bytes, the least significant first; at most the first four count.
pub fn number(bytes: &[u8]) -> u32 {
    let low = bytes.iter().take(4).enumerate();
    low.map(|(place, &byte)| u32::from(byte) << (8 * place))
        .sum()
}

/// A number in so many bytes, the least significant first.
pub fn numbered(value: u32, width: usize) -> Vec<u8> {
    value
        .to_le_bytes()
        .iter()
        .copied()
        .chain(std::iter::repeat(0))
        .take(width)
        .collect()
}

/// The sum of bytes, modulo 65,536.
pub fn sum(bytes: &[u8]) -> u16 {
    bytes
        .iter()
        .fold(0, |sum: u16, &byte| sum.wrapping_add(byte.into()))
}

/// A packet of a type with at most 2,047 bytes of information.
pub fn packet(kind: u8, information: &[u8]) -> Vec<u8> {
    let length = information.len();
    let mut bytes = vec![length as u8, kind | ((length >> 8) as u8) << 5];
    bytes.extend(information);
    bytes
}
