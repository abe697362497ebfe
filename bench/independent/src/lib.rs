//! A second implementation of the analysis and of the writing of tables, besides the proved one. Its only ground are the scope document
//! and the requests that followed it; it shares nothing with the proved code, and nothing in it is proved. Everything is done in the
//! plainest way: time goes tick by tick, curves are lists of ticks. It says what the proved programs are expected to print, so that
//! the two can be compared (`compare`).

pub mod analysis;
pub mod curves;
pub mod machine;
pub mod reading;
pub mod report;
pub mod writing;

/// Why a call is turned away: the ground's number, the line in the text (0 where no line is meant) and the field's place in
/// that line, counted from 1 (0 where no field is meant).
#[derive(Clone, Copy, Debug, PartialEq, Eq)]
pub struct Refusal {
    pub number: u32,
    pub line: u32,
    pub place: u32,
}

impl Refusal {
    /// A ground that means no line and no field.
    pub fn plain(number: u32) -> Refusal {
        Refusal { number, line: 0, place: 0 }
    }

    /// The words of a `refused` line: `refused`, number, line, place.
    pub fn words(self, parting: char) -> String {
        let Refusal { number, line, place } = self;
        format!("refused{parting}{number}{parting}{line}{parting}{place}")
    }
}
