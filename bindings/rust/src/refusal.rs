use std::error::Error;
use std::fmt::{Display, Formatter, Result};

/// The causes, each with its number and what it says: the one list of them.
macro_rules! causes {
    ($($cause:ident = $number:literal, $text:literal;)+) => {
        /// Why a call was turned away, by the numbers of documents 01 and 02.
        #[derive(Clone, Copy, Debug, Eq, PartialEq)]
        pub enum Refusal {
            $(#[doc = $text] $cause = $number,)+
        }

        impl Refusal {
            /// Every cause.
            const ALL: &[Self] = &[$(Self::$cause,)+];

            fn text(self) -> &'static str {
                match self {
                    $(Self::$cause => $text,)+
                }
            }
        }
    };
}

causes! {
    Family = 1, "the family is not carried: not one of 1 to 7";
    Dimension = 2, "the dimension is not one of 1 to 512";
    Length = 3, "the area is not 11 vectors long, TSRKC2's not 12, or a vector has another dimension";
    Phase = 4,
        "called out of turn: an attempt needs a start or a finished attempt before it, an accept a finished \
         attempt, a reply or abandon a pending evaluation, and after a refused reply or an abandon only a \
         start is allowed; or the record's pass, stage count or stage is out of range";
    State = 5, "the state is not finite";
    TimeOrStep = 6, "the time is not finite, or the step is zero or not finite";
    Tolerance = 7, "a tolerance is not finite or not above 0";
    Counters = 8, "a counter has reached its limit";
    Derivative = 9, "the derivative is not finite";
    Candidate = 10, "the candidate is not finite";
    Stages = 11, "TSRKC2 would need more than 1000 stages";
}

impl Refusal {
    /// Its number.
    pub fn number(self) -> u64 {
        self as u64
    }

    /// The cause that has this number.
    pub fn of_number(number: u64) -> Option<Self> {
        Self::ALL
            .iter()
            .copied()
            .find(|cause| cause.number() == number)
    }
}

impl Display for Refusal {
    fn fmt(&self, formatter: &mut Formatter<'_>) -> Result {
        formatter.write_str(self.text())
    }
}

impl Error for Refusal {}

#[cfg(test)]
mod tests {
    use super::Refusal;

    /// The rows of docs/REFUSALS.md: number and Rust name.
    fn documented() -> Vec<(u64, String)> {
        include_str!("../../../docs/REFUSALS.md")
            .lines()
            .filter_map(|line| {
                let fields: Vec<&str> = line.trim_matches('|').split('|').map(str::trim).collect();
                let name = fields.last()?.trim_matches('`');
                Some((fields.first()?.parse().ok()?, name.to_string()))
            })
            .collect()
    }

    #[test]
    fn every_cause_is_documented_by_its_number() {
        let ours: Vec<(u64, String)> = Refusal::ALL
            .iter()
            .map(|cause| (cause.number(), format!("{cause:?}")))
            .collect();
        assert_eq!(ours, documented());
    }

    #[test]
    fn a_number_has_its_cause() {
        for &cause in Refusal::ALL {
            assert_eq!(Refusal::of_number(cause.number()), Some(cause));
            assert!(!cause.to_string().is_empty());
        }
        assert_eq!(Refusal::of_number(0), None);
        assert_eq!(Refusal::of_number(u64::MAX), None);
    }
}
