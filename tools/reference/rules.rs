//! Rows, the sheet, questions, the three analyses, the three layers and piles,
//! written down sentence by sentence from `docs/RULES.md`.
//!
//! Nothing here is meant to be fast: the least solution of an equation is
//! found by trying 1, 2, 3 and so on.

/// The greatest number of rows that stand, and of rows in a question's table.
pub const MOST_ROWS: usize = 128;
/// The greatest number of pairs in a list.
pub const MOST_PAIRS: usize = 32;

const GREATEST_NUMBER: u32 = 65_535;
const GREATEST_COST: u32 = 1_000_000;
const GREATEST_COST_ASKED: u32 = 1_000_001;
const GREATEST_PERIOD: u32 = 1_000_000;

/// Why a call is not carried out: the code, and the field it refers to or 0.
#[derive(Clone, Copy, Debug, PartialEq, Eq)]
pub struct Refusal {
    pub field: u32,
    pub code: u32,
}

/// The refusal of a call, as a result of any type.
pub fn refuse<T>(field: u32, code: u32) -> Result<T, Refusal> {
    Err(Refusal { field, code })
}

/// One runnable.
#[derive(Clone, Copy, Debug, PartialEq, Eq)]
pub struct Row {
    pub number: u32,
    pub cost: u32,
    pub period: u32,
    pub deadline: u32,
    pub section: u32,
}

impl Row {
    /// The leftmost field whose value is out of range.
    fn wrong_field(&self, greatest_cost: u32) -> Option<u32> {
        if self.number < 1 || self.number > GREATEST_NUMBER {
            Some(1)
        } else if self.cost < 1 || self.cost > greatest_cost {
            Some(2)
        } else if self.period < 1 || self.period > GREATEST_PERIOD {
            Some(3)
        } else if self.deadline < 1 || self.deadline > self.period {
            Some(4)
        } else if self.section > self.cost {
            Some(5)
        } else {
            None
        }
    }
}

/// The rows that stand, kept in the order of their entry.
#[derive(Clone, Debug, Default)]
pub struct Sheet {
    entered: Vec<Row>,
}

impl Sheet {
    /// The standing row with this number.
    pub fn standing(&self, number: u32) -> Option<Row> {
        self.entered.iter().copied().find(|row| row.number == number)
    }

    /// Adds a row.
    pub fn enter(&mut self, row: Row) -> Result<(), Refusal> {
        if let Some(field) = row.wrong_field(GREATEST_COST) {
            return refuse(field, 3);
        }
        if self.standing(row.number).is_some() {
            return refuse(1, 4);
        }
        if self.entered.len() >= MOST_ROWS {
            return refuse(0, 5);
        }
        self.entered.push(row);
        Ok(())
    }

    /// Removes the row with this number.
    pub fn strike(&mut self, number: u32) -> Result<(), Refusal> {
        if number < 1 || number > GREATEST_NUMBER {
            return refuse(1, 3);
        }
        if self.standing(number).is_none() {
            return refuse(1, 6);
        }
        self.entered.retain(|row| row.number != number);
        Ok(())
    }

    /// The standing rows in sheet order: by ascending deadline, rows of equal
    /// deadline in the order of their entry.
    pub fn in_order(&self) -> Vec<Row> {
        let mut rows = self.entered.clone();
        rows.sort_by_key(|row| row.deadline); // keeps the order of equal ones
        rows
    }
}

/// Whether a row has a higher or a lower priority than the asked row.
#[derive(Clone, Copy, Debug, PartialEq, Eq)]
pub enum Mark {
    Above,
    Below,
}

/// What an analysis is asked.
#[derive(Clone, Debug)]
pub struct Question {
    pub table: Vec<Row>,
    pub marks: Vec<Mark>,
    pub place: usize,
}

impl Question {
    /// Refuses a malformed question, and one with a value out of range.
    fn check(&self) -> Result<(), Refusal> {
        if self.table.len() > MOST_ROWS
            || self.marks.len() != self.table.len()
            || self.place >= self.table.len()
        {
            return refuse(0, 7);
        }
        for row in &self.table {
            if let Some(field) = row.wrong_field(GREATEST_COST_ASKED) {
                return refuse(field, 3);
            }
        }
        Ok(())
    }

    fn asked(&self) -> Row {
        self.table[self.place]
    }

    /// The rows other than the asked one that have this mark.
    fn others(&self, mark: Mark) -> Vec<Row> {
        let mut rows = Vec::new();
        for (place, row) in self.table.iter().enumerate() {
            if place != self.place && self.marks[place] == mark {
                rows.push(*row);
            }
        }
        rows
    }
}

/// The answer to a question.
#[derive(Clone, Copy, Debug, PartialEq, Eq)]
pub enum Verdict {
    OnTime(u64),
    Late,
}

#[derive(Clone, Copy, Debug, PartialEq, Eq)]
pub enum Analysis {
    Exact,
    Linear,
    Sections,
}

impl Analysis {
    pub fn named(word: &[u8]) -> Option<Analysis> {
        match word {
            b"exact" => Some(Analysis::Exact),
            b"linear" => Some(Analysis::Linear),
            b"sections" => Some(Analysis::Sections),
            _ => None,
        }
    }

    fn verdict(self, question: &Question) -> Verdict {
        let asked = question.asked();
        let cost = u64::from(asked.cost);
        let above = question.others(Mark::Above);
        match self {
            Analysis::Exact => least_solution(cost, &above, asked.deadline),
            Analysis::Linear => {
                let response = cost + interference(&above, asked.deadline);
                if response <= u64::from(asked.deadline) {
                    Verdict::OnTime(response)
                } else {
                    Verdict::Late
                }
            }
            Analysis::Sections => {
                let below = question.others(Mark::Below);
                let blocking = below.iter().map(|row| row.section).max().unwrap_or(0);
                least_solution(u64::from(blocking) + cost, &above, asked.deadline)
            }
        }
    }
}

/// The time that a row above takes in a window of w ticks.
fn share(row: &Row, w: u32) -> u64 {
    u64::from(w.div_ceil(row.period)) * u64::from(row.cost)
}

/// The time that all rows above take in a window of w ticks.
fn interference(above: &[Row], w: u32) -> u64 {
    above.iter().map(|row| share(row, w)).sum()
}

/// Whether w is `own` plus the interference in a window of w ticks.
fn solves(own: u64, above: &[Row], w: u32) -> bool {
    let mut sum = own;
    for row in above {
        if sum > u64::from(w) {
            return false; // what is still to be added makes it no smaller
        }
        sum += share(row, w);
    }
    sum == u64::from(w)
}

/// The smallest w from 1 to the deadline that solves the equation.
fn least_solution(own: u64, above: &[Row], deadline: u32) -> Verdict {
    for w in 1..=deadline {
        if solves(own, above, w) {
            return Verdict::OnTime(u64::from(w));
        }
    }
    Verdict::Late
}

/// The pair (u, l): row l never has a higher priority than row u.
#[derive(Clone, Copy, Debug, PartialEq, Eq)]
pub struct Pair {
    pub u: u32,
    pub l: u32,
}

/// The list of pairs of a session or of a layer.
#[derive(Clone, Debug, Default)]
pub struct Pairs {
    list: Vec<Pair>,
}

impl Pairs {
    /// Adds a pair to the list.
    pub fn add(&mut self, pair: Pair) -> Result<(), Refusal> {
        if pair.u < 1 || pair.u > GREATEST_NUMBER {
            return refuse(1, 3);
        }
        if pair.l < 1 || pair.l > GREATEST_NUMBER {
            return refuse(2, 3);
        }
        if pair.u == pair.l {
            return refuse(0, 8);
        }
        if self.list.contains(&pair) {
            return refuse(0, 9);
        }
        if self.list.len() >= MOST_PAIRS {
            return refuse(0, 10);
        }
        self.list.push(pair);
        Ok(())
    }

    /// Whether a pair forbids the asked row to be below a row that is above it.
    fn forbid(&self, question: &Question) -> bool {
        let asked = question.asked();
        let above = question.others(Mark::Above);
        self.list.iter().any(|pair| pair.u == asked.number && above.iter().any(|row| row.number == pair.l))
    }
}

/// A charge setting in range, in ticks.
pub fn charge_setting(s: u32) -> Result<u32, Refusal> {
    if s <= 10_000 {
        Ok(s)
    } else {
        refuse(1, 3)
    }
}

/// A margin setting in range, in percent.
pub fn margin_setting(p: u32) -> Result<u32, Refusal> {
    if p <= 99 {
        Ok(p)
    } else {
        refuse(1, 3)
    }
}

/// One of the analyses together with the layers over it.
#[derive(Clone, Debug)]
pub enum Pile {
    Analysis(Analysis),
    Charge(u32, Box<Pile>),
    Margin(u32, Box<Pile>),
    Pairs(Pairs, Box<Pile>),
}

impl Pile {
    /// The verdict on a question, or its refusal.
    pub fn ask(&self, question: &Question) -> Result<Verdict, Refusal> {
        question.check()?;
        Ok(self.verdict(question))
    }

    fn verdict(&self, question: &Question) -> Verdict {
        match self {
            Pile::Analysis(analysis) => analysis.verdict(question),
            Pile::Charge(s, under) => under.verdict(&charged(question, *s)),
            Pile::Margin(p, under) => with_reserve(under.verdict(question), question.asked(), *p),
            Pile::Pairs(pairs, under) => {
                if pairs.forbid(question) {
                    Verdict::Late
                } else {
                    under.verdict(question)
                }
            }
        }
    }
}

/// The question with every cost increased by s, up to 1,000,001.
fn charged(question: &Question, s: u32) -> Question {
    let mut charged = question.clone();
    for row in &mut charged.table {
        row.cost += s;
        if row.cost > GREATEST_COST_ASKED {
            row.cost = GREATEST_COST_ASKED;
        }
    }
    charged
}

/// The verdict where p percent of the deadline are kept in reserve.
fn with_reserve(verdict: Verdict, asked: Row, p: u32) -> Verdict {
    match verdict {
        Verdict::OnTime(response) if response * 100 <= u64::from(asked.deadline) * u64::from(100 - p) => {
            Verdict::OnTime(response)
        }
        _ => Verdict::Late,
    }
}
