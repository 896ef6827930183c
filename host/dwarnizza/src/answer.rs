//! The convention of every export: a result, and an answer of eight words.

use crate::refusal::{Link, Reason, Refusal};

/// The words of an answer.
pub type Words = [u64; 8];

const ANSWERED: u32 = 0;
const ABSENT: u32 = 1;
const REFUSED: u32 = 2;

/// Makes a call that answers or refuses, and gives the words of its answer.
pub fn answered(call: impl FnOnce(&mut Words) -> u32) -> Result<Words, Refusal> {
    let mut words = [0; 8];
    match call(&mut words) {
        ANSWERED => Ok(words),
        REFUSED => Err(refusal(&words)),
        result => panic!("the library gave the result {result} where it answers or refuses"),
    }
}

/// The words of the answer to a search.
#[derive(Clone, Copy, Debug, PartialEq, Eq)]
pub enum Search {
    Found(Words),
    Absent(Words),
}

impl Search {
    /// The words of what was found.
    pub fn found(self) -> Option<Words> {
        match self {
            Search::Found(words) => Some(words),
            Search::Absent(_) => None,
        }
    }
}

/// Makes a call that finds, misses or refuses, and gives the words of its answer.
pub fn searched(call: impl FnOnce(&mut Words) -> u32) -> Result<Search, Refusal> {
    let mut words = [0; 8];
    match call(&mut words) {
        ANSWERED => Ok(Search::Found(words)),
        ABSENT => Ok(Search::Absent(words)),
        REFUSED => Err(refusal(&words)),
        result => panic!("the library gave the result {result}, which is none"),
    }
}

/// What a call gives that is refused nothing, by a check that was made before.
pub fn unrefused<T>(answer: Result<T, Refusal>) -> T {
    match answer {
        Ok(answer) => answer,
        Err(refusal) => panic!("the library refused what it had passed: {refusal}"),
    }
}

fn refusal(words: &Words) -> Refusal {
    let [reason, place, chain_link, ..] = *words;
    let Some(reason) = Reason::from_number(number(reason)) else {
        panic!("the library gave the refusal {reason}, which is none");
    };
    Refusal {
        reason,
        place,
        link: link(chain_link),
    }
}

/// The number of 32 bits that a word is.
pub fn number(word: u64) -> u32 {
    u32::try_from(word).expect("it has 32 bits")
}

/// The length, count or place in a slice that a word is.
pub fn size(word: u64) -> usize {
    usize::try_from(word).expect("what is in a slice is counted by a usize")
}

/// The part of a file that an answer names.
pub fn part(file: &[u8], place: u64, length: u64) -> &[u8] {
    &file[size(place)..][..size(length)]
}

/// The link that a word names; none outside a chain.
pub fn link(word: u64) -> Option<Link> {
    match word {
        0 => None,
        1 => Some(Link::Root),
        2 => Some(Link::Encoding),
        3 => Some(Link::Index),
        _ => panic!("the library named link {word} of a chain of three"),
    }
}

#[cfg(test)]
mod tests {
    use super::*;

    const WORDS: Words = [1, 2, 3, 4, 5, 6, 7, 8];

    /// A call that leaves these words and this result.
    fn call(words: Words, result: u32) -> impl Fn(&mut Words) -> u32 {
        move |answer| {
            *answer = words;
            result
        }
    }

    #[test]
    fn an_answer_keeps_its_words() {
        assert_eq!(answered(call(WORDS, ANSWERED)), Ok(WORDS));
        assert_eq!(searched(call(WORDS, ANSWERED)), Ok(Search::Found(WORDS)));
        assert_eq!(searched(call(WORDS, ABSENT)), Ok(Search::Absent(WORDS)));
    }

    #[test]
    fn a_refusal_has_reason_place_and_link() {
        let links = [
            None,
            Some(Link::Root),
            Some(Link::Encoding),
            Some(Link::Index),
        ];
        for (word, link) in (0..).zip(links) {
            let call = call([8, 3, word, 0, 0, 0, 0, 0], REFUSED);
            let refusal = Refusal {
                reason: Reason::IndexOrder,
                place: 3,
                link,
            };
            assert_eq!(answered(&call), Err(refusal));
            assert_eq!(searched(&call), Err(refusal));
        }
    }

    #[test]
    #[should_panic(expected = "the library gave the refusal 14, which is none")]
    fn a_number_that_is_none() {
        let _ = answered(call([14, 0, 0, 0, 0, 0, 0, 0], REFUSED));
    }

    #[test]
    #[should_panic(expected = "the library gave the result 3, which is none")]
    fn a_result_that_is_none() {
        let _ = searched(call(WORDS, 3));
    }
}
