//! Texts of the bytes that numbers are made of, judged by the Rust library's own f64 reading and by the pattern of a
//! NumberLiteral.
use crate::{
    kinds::{NUMBER, fits},
    random::Random,
};

#[derive(Clone, Debug)]
pub struct Number {
    pub text: String,
    /// Whether `parse::<f64>` takes it.
    pub is_float: bool,
    /// Whether it is a NumberLiteral.
    pub fits: bool,
}

/// First all texts of up to four of these bytes, then texts of random pieces.
const BYTES: &[u8] = b"07.eE+-";
const PIECES: &[&str] = &[
    "0", "9", "12", "5", ".", ".", "e", "E", "e+", "E-", "+", "-", "inf", "Inf", "INF", "infinity",
    "Infinity", "iNFINITY", "nan", "NaN", "i", "n", "f", "y", " ", "_", "x", "/", ":", "d", "1.5e3",
];

pub fn number(seed: u64, index: u64) -> Number {
    let text = short(index as usize).unwrap_or_else(|| {
        let mut random = Random::of(seed, index);
        (0..random.between(1, 5)).map(|_| random.pick(PIECES)).collect()
    });
    Number { is_float: text.parse::<f64>().is_ok(), fits: fits(NUMBER, text.as_bytes()), text }
}

/// The text with this number among all that have up to four of the bytes, by length.
fn short(mut index: usize) -> Option<String> {
    for length in 0..=4 {
        let texts = BYTES.len().pow(length);
        if index < texts {
            return Some(
                (0..length)
                    .map(|place| BYTES[index / BYTES.len().pow(place) % BYTES.len()] as char)
                    .collect(),
            );
        }
        index -= texts;
    }
    None
}
