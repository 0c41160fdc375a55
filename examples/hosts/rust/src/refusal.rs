use std::{error::Error, fmt};

/// A line for each refusal: its number, and the sentence that says what it means.
const SENTENCES: &str = include_str!("../../../../include/refusals.txt");
const UNKNOWN: &str = "a number that the table does not have";

/// Why a call was refused: the number of the first test of the table in include/planner.h that applies to its arguments.
#[derive(Clone, Copy, Debug, Eq, PartialEq)]
pub struct Refusal(pub u32);

impl Refusal {
    /// What the number means.
    pub fn sentence(self) -> &'static str {
        SENTENCES
            .lines()
            .filter_map(|line| line.split_once(' '))
            .find(|(number, _)| *number == self.0.to_string())
            .map_or(UNKNOWN, |(_, sentence)| sentence)
    }
}

impl fmt::Display for Refusal {
    fn fmt(&self, formatter: &mut fmt::Formatter) -> fmt::Result {
        write!(formatter, "refused, {}: {}", self.0, self.sentence())
    }
}

impl Error for Refusal {}

/// What a call answers by the number that it returned.
pub(crate) fn answer<T>(number: u32, value: T) -> Result<T, Refusal> {
    match number {
        0 => Ok(value),
        _ => Err(Refusal(number)),
    }
}

#[cfg(test)]
mod tests {
    use super::*;

    #[test]
    fn has_a_sentence_for_each_number() {
        let known = (0..100).filter(|&number| Refusal(number).sentence() != UNKNOWN);

        assert!(known.eq(1..=17));
    }
}
