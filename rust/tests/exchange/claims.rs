//! What the page's table of damages claims, row by row.

use super::page::table;
use std::collections::BTreeSet;

/// What the answer is, where nothing is refused.
#[derive(Clone, Copy, Debug, PartialEq, Eq)]
pub enum Answers {
    /// There is none: all is refused.
    None,
    /// In some cases right, in others wrong.
    RightOrWrong,
    /// Always wrong.
    Opposite,
    /// Always right.
    Right,
}

/// A row, or a part of it: the refusals that there are, and what the answer is else.
#[derive(Debug, PartialEq, Eq)]
pub struct Claim {
    pub refusals: BTreeSet<u8>,
    pub answers: Answers,
}

/// A row of the table by its first two cells. Where the second names several parts, each has its own claim.
#[derive(Clone, Copy, Debug, PartialEq, Eq, PartialOrd, Ord)]
pub struct Row {
    pub file: &'static str,
    pub change: &'static str,
}

const TABLE: &str = "A file that was damaged";

/// The rows that the page has, in its order.
pub fn rows() -> Vec<Row> {
    let rows = table(TABLE).into_iter();
    rows.map(|cells| Row {
        file: cells[0],
        change: cells[1],
    })
    .collect()
}

impl Row {
    /// What the page says happens.
    pub fn happens(self) -> &'static str {
        let mut found = table(TABLE)
            .into_iter()
            .filter(|cells| cells[..2] == [self.file, self.change]);
        let cells = found.next().unwrap_or_else(|| panic!("the page has no row {self:?}"));
        assert_eq!((cells.len(), found.next()), (3, None), "{self:?}");
        cells[2]
    }

    /// Its claims, one for each part of the change.
    pub fn claims(self) -> Vec<Claim> {
        let parts = self.change.split("; ").count();
        if parts == 1 {
            return vec![Claim::of(self.happens())];
        }
        let claims: Vec<Claim> = self.happens().split("; ").map(Claim::of).collect();
        assert_eq!(claims.len(), parts, "a claim for each part of {self:?}");
        claims
    }
}

impl Claim {
    fn of(text: &str) -> Self {
        let (before, after) = text.split_once(": ").unwrap_or((text, ""));
        let numbers = before.split(|letter: char| !letter.is_ascii_digit());
        let answers = match after {
            "" => Answers::None,
            "some token is wrong, which the desk meets as 29, or none that is taken" => Answers::RightOrWrong,
            "**the opposite answer**" => Answers::Opposite,
            "the same answer" | "the answer is right" => Answers::Right,
            other => panic!("the page claims what no test knows: {other}"),
        };
        let refusals = numbers.filter_map(|number| number.parse().ok()).collect();
        Self { refusals, answers }
    }
}

/// What was seen of a row or of a part of it.
#[derive(Debug, Default)]
pub struct Seen {
    refusals: BTreeSet<u8>,
    right: bool,
    wrong: bool,
}

impl Seen {
    /// An outcome: a refusal, or whether the answer was right.
    pub fn add(&mut self, outcome: Result<bool, u8>) {
        match outcome {
            Ok(true) => self.right = true,
            Ok(false) => self.wrong = true,
            Err(number) => _ = self.refusals.insert(number),
        }
    }

    /// Whether what was seen is all that is claimed, and nothing else.
    pub fn is_all_of(&self, claim: &Claim) -> bool {
        let answers = match claim.answers {
            Answers::None => !self.right && !self.wrong,
            Answers::RightOrWrong => self.right && self.wrong,
            Answers::Opposite => !self.right && self.wrong,
            Answers::Right => self.right && !self.wrong,
        };
        answers && self.refusals == claim.refusals
    }

    /// Whether all that was seen is among what is claimed.
    pub fn is_within(&self, claim: &Claim) -> bool {
        let (right, wrong) = match claim.answers {
            Answers::None => (false, false),
            Answers::RightOrWrong => (true, true),
            Answers::Opposite => (false, true),
            Answers::Right => (true, false),
        };
        self.refusals.is_subset(&claim.refusals) && self.right <= right && self.wrong <= wrong
    }
}
