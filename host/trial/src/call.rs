//! What a list is made of: event words, and between them calls that name a kind of controller.

use std::fmt;

#[derive(Clone, Copy, PartialEq, Eq, Debug)]
pub enum Call {
    Word(u16),
    /// Any number, among them those that no kind has.
    Name(u8),
}

impl Call {
    pub fn list(words: &[u16]) -> Vec<Call> {
        words.iter().map(|&word| Call::Word(word)).collect()
    }

    pub fn word(self) -> Option<u16> {
        match self {
            Call::Word(word) => Some(word),
            Call::Name(_) => None,
        }
    }

    /// The words up to the first name: what one batch can take.
    pub fn until_name(list: &[Call]) -> Vec<u16> {
        list.iter().map_while(|call| call.word()).collect()
    }

    /// The words of a list, without the names: what a replay takes.
    pub fn words(list: &[Call]) -> Vec<u16> {
        list.iter().filter_map(|call| call.word()).collect()
    }
}

impl fmt::Display for Call {
    fn fmt(&self, f: &mut fmt::Formatter) -> fmt::Result {
        match self {
            Call::Word(word) => write!(f, "{:04X}", word),
            Call::Name(number) => write!(f, "kind={}", number),
        }
    }
}
