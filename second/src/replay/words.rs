//! The words of a line: names, numbers, octets and lists.

use std::str::FromStr;

/// Whether a word may be the name of an end.
pub fn is_name(word: &str) -> bool {
    let is_letter = |letter: u8| matches!(letter, b'a'..=b'z' | b'0'..=b'9');
    (1..=8).contains(&word.len()) && word.bytes().all(is_letter)
}

/// A decimal number that fits its type, without sign and leading zeros.
pub fn number<T: FromStr>(word: &str) -> Option<T> {
    let is_decimal = word.bytes().all(|digit| digit.is_ascii_digit());
    let is_plain = is_decimal && (word == "0" || !word.starts_with('0'));
    is_plain.then(|| word.parse().ok()).flatten()
}

/// A number of at most `most`.
pub fn number_to(most: usize, word: &str) -> Option<usize> {
    number(word).filter(|&value| value <= most)
}

pub fn on_or_off(word: &str) -> Option<bool> {
    match word {
        "on" => Some(true),
        "off" => Some(false),
        _ => None,
    }
}

/// Octets in lowercase hexadecimal, or `-` for none.
pub fn octets(word: &str) -> Option<Vec<u8>> {
    if word == "-" {
        return Some(Vec::new());
    }
    if word.is_empty() || word.len() % 2 == 1 {
        return None;
    }
    let pairs = word.as_bytes().chunks(2);
    pairs
        .map(|pair| Some(digit(pair[0])? << 4 | digit(pair[1])?))
        .collect()
}

fn digit(character: u8) -> Option<u8> {
    match character {
        b'0'..=b'9' => Some(character - b'0'),
        b'a'..=b'f' => Some(character - b'a' + 10),
        _ => None,
    }
}

/// Octets as a line has them.
pub fn digits(octets: &[u8]) -> String {
    const DIGITS: &[u8; 16] = b"0123456789abcdef";
    if octets.is_empty() {
        return "-".to_string();
    }
    let mut text = String::with_capacity(2 * octets.len());
    for octet in octets {
        text.push(char::from(DIGITS[usize::from(octet >> 4)]));
        text.push(char::from(DIGITS[usize::from(octet & 15)]));
    }
    text
}

/// Numbers joined by commas, or `-` for none.
pub fn list(word: &str) -> Option<Vec<u32>> {
    if word == "-" {
        return Some(Vec::new());
    }
    word.split(',').map(number).collect()
}

/// A list as a line has it.
pub fn listed<T: ToString>(numbers: impl Iterator<Item = T>) -> String {
    let words: Vec<String> = numbers.map(|number| number.to_string()).collect();
    if words.is_empty() {
        return "-".to_string();
    }
    words.join(",")
}
