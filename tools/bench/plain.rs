//! The program `mapper` in plain Rust, to compare its speed with.
//!
//!     plain < script > answers
//!     plain --many < scripts > answers
//!
//! With --many the input is split at every byte 30 and each part is one script; the answers to each are followed by a
//! line `--`.

use std::io::{self, Read, Write};

const MOST_BYTES: usize = 65_536;
const MOST_ROWS: usize = 128;
const MOST_PAIRS: usize = 32;
const MOST_NUMBER: u32 = 65_535;
const MOST_TICKS: u32 = 1_000_000;
const MOST_CHARGED: u32 = 1_000_001;
const MOST_CHARGE: u32 = 10_000;
const MOST_MARGIN: u32 = 99;

#[derive(Clone, Copy)]
struct Row {
    number: u32,
    cost: u32,
    period: u32,
    deadline: u32,
    section: u32,
}

impl Row {
    /// What the row asks of the processor in a window of so many ticks.
    fn demand(&self, window: u32) -> u64 {
        u64::from(window.div_ceil(self.period)) * u64::from(self.cost)
    }
}

#[derive(Clone, Copy)]
struct Pair {
    upper: u32,
    lower: u32,
}

#[derive(Clone, Copy)]
enum Choice {
    Exact,
    Linear,
    Sections,
}

#[derive(Clone, Copy)]
enum Rule {
    Equal,
    Divided,
}

/// Why a line is refused.
struct Refusal {
    field: u32,
    code: u32,
}

const FORM: Refusal = Refusal { field: 0, code: 1 };

fn refuse<T>(field: u32, code: u32) -> Result<T, Refusal> {
    Err(Refusal { field, code })
}

fn within(low: u32, value: u32, high: u32, field: u32) -> Result<(), Refusal> {
    if (low..=high).contains(&value) {
        Ok(())
    } else {
        refuse(field, 3)
    }
}

// ---- text

/// The value of a number field: 1 to 7 digits, with no zero in front unless it is alone.
fn number(field: &[u8]) -> Option<u32> {
    if field.is_empty() || field.len() > 7 || (field.len() > 1 && field[0] == b'0') {
        return None;
    }
    field.iter().try_fold(0, |n, b| {
        b.is_ascii_digit().then(|| n * 10 + u32::from(b - b'0'))
    })
}

/// Exactly `N` parts.
fn fields<'a, const N: usize>(
    mut parts: impl Iterator<Item = &'a [u8]>,
) -> Result<[&'a [u8]; N], Refusal> {
    let mut fields: [&[u8]; N] = [&[]; N];
    for field in &mut fields {
        *field = parts.next().ok_or(FORM)?;
    }
    match parts.next() {
        Some(_) => Err(FORM),
        None => Ok(fields),
    }
}

/// Exactly `N` parts that are number fields.
fn numbers<'a, const N: usize>(parts: impl Iterator<Item = &'a [u8]>) -> Result<[u32; N], Refusal> {
    let fields = fields::<N>(parts)?;
    let mut values = [0; N];
    for (i, field) in fields.iter().enumerate() {
        match number(field) {
            Some(value) => values[i] = value,
            None => return refuse(i as u32 + 1, 2),
        }
    }
    Ok(values)
}

fn put_number(out: &mut Vec<u8>, mut n: u32) {
    let mut digits = [0; 10];
    let mut at = digits.len();
    loop {
        at -= 1;
        digits[at] = b'0' + (n % 10) as u8;
        n /= 10;
        if n == 0 {
            break;
        }
    }
    out.extend_from_slice(&digits[at..]);
}

/// Puts the numbers with commas between them, and byte 10.
fn put_line(out: &mut Vec<u8>, numbers: [u32; 4]) {
    for (i, n) in numbers.into_iter().enumerate() {
        if i > 0 {
            out.push(b',');
        }
        put_number(out, n);
    }
    out.push(b'\n');
}

/// Puts a word and three numbers with commas between them, and byte 10.
fn put_header(out: &mut Vec<u8>, word: &[u8], numbers: [u32; 3]) {
    out.extend_from_slice(word);
    for n in numbers {
        out.push(b',');
        put_number(out, n);
    }
    out.push(b'\n');
}

// ---- mapping

/// An analysis with its layers.
struct Pile<'a> {
    choice: Choice,
    pairs: &'a [Pair],
    margin: u32,
}

impl Pile<'_> {
    /// The response of one of the unplaced rows with all others above it, unless it is late.
    fn response(&self, unplaced: &[Row], at: usize, blocking: u32) -> Option<u32> {
        let asked = unplaced[at];
        if self
            .pairs
            .iter()
            .any(|p| p.upper == asked.number && unplaced.iter().any(|r| r.number == p.lower))
        {
            return None;
        }
        let others = |w| demand(&unplaced[..at], w) + demand(&unplaced[at + 1..], w);
        let response = match self.choice {
            Choice::Exact => settle(asked.deadline, asked.cost, others),
            Choice::Sections => settle(asked.deadline, blocking + asked.cost, others),
            Choice::Linear => {
                let w = u64::from(asked.cost) + others(asked.deadline);
                (w <= u64::from(asked.deadline)).then_some(w as u32)
            }
        }?;
        let left = 100 - self.margin;
        (u64::from(response) * 100 <= u64::from(asked.deadline) * u64::from(left))
            .then_some(response)
    }
}

/// What some rows ask of the processor in a window of so many ticks.
fn demand(rows: &[Row], window: u32) -> u64 {
    rows.iter().map(|row| row.demand(window)).sum()
}

/// The least `w` up to the deadline that equals `start` and the demand of the others in a window of `w` ticks.
fn settle(deadline: u32, start: u32, others: impl Fn(u32) -> u64) -> Option<u32> {
    let mut w = u64::from(start);
    while w <= u64::from(deadline) {
        let next = u64::from(start) + others(w as u32);
        if next == w {
            return Some(w as u32);
        }
        w = next;
    }
    None
}

/// A row of the plan: task, place, number and response.
type PlanLine = [u32; 4];

/// The number of tasks and the lines of the plan of rows in sheet order; none where they are unschedulable.
fn plan(mut unplaced: Vec<Row>, pile: &Pile, rule: Rule) -> Option<(u32, Vec<PlanLine>)> {
    let mut lines = Vec::with_capacity(unplaced.len());
    let mut responses = Vec::with_capacity(unplaced.len());
    let mut blocking = 0;
    let mut task = 0;
    while !unplaced.is_empty() {
        responses.clear();
        responses.extend((0..unplaced.len()).map(|at| pile.response(&unplaced, at, blocking)));
        let lead = unplaced[responses.iter().rposition(Option::is_some)?].period;
        let divisor = match rule {
            Rule::Equal => lead,
            Rule::Divided => unplaced
                .iter()
                .zip(&responses)
                .filter(|(row, response)| response.is_some() && lead % row.period == 0)
                .map(|(row, _)| row.period)
                .min()?,
        };
        task += 1;
        let mut place = 0;
        let mut answers = responses.iter();
        unplaced.retain(|row| {
            let goes = match rule {
                Rule::Equal => row.period == lead,
                Rule::Divided => row.period % divisor == 0,
            };
            match answers.next() {
                Some(&Some(response)) if goes => {
                    place += 1;
                    lines.push([task, place, row.number, response]);
                    blocking = blocking.max(row.section);
                    false
                }
                _ => true,
            }
        });
    }
    Some((task, lines))
}

// ---- a session

#[derive(Default)]
struct Session {
    /// By ascending deadline, the earlier entered first among equal ones.
    rows: Vec<Row>,
    pairs: Vec<Pair>,
    charge: u32,
    margin: u32,
}

impl Session {
    /// Takes a line, and puts the plan if it asks for one.
    fn take(&mut self, count: u32, line: &[u8], out: &mut Vec<u8>) -> Result<(), Refusal> {
        let mut parts = line.split(|&b| b == b',');
        match parts.next() {
            Some(b"row") => {
                let [number, cost, period, deadline, section] = numbers(parts)?;
                self.enter(Row {
                    number,
                    cost,
                    period,
                    deadline,
                    section,
                })
            }
            Some(b"strike") => {
                let [number] = numbers(parts)?;
                self.strike(number)
            }
            Some(b"pair") => {
                let [upper, lower] = numbers(parts)?;
                self.pair(Pair { upper, lower })
            }
            Some(b"charge") => {
                let [ticks] = numbers(parts)?;
                within(0, ticks, MOST_CHARGE, 1)?;
                self.charge = ticks;
                Ok(())
            }
            Some(b"margin") => {
                let [percent] = numbers(parts)?;
                within(0, percent, MOST_MARGIN, 1)?;
                self.margin = percent;
                Ok(())
            }
            Some(b"map") => {
                let [choice, rule] = fields(parts)?;
                let choice = match choice {
                    b"exact" => Choice::Exact,
                    b"linear" => Choice::Linear,
                    b"sections" => Choice::Sections,
                    _ => return Err(FORM),
                };
                let rule = match rule {
                    b"equal" => Rule::Equal,
                    b"divided" => Rule::Divided,
                    _ => return Err(FORM),
                };
                self.map(count, choice, rule, out)
            }
            _ => Err(FORM),
        }
    }

    fn enter(&mut self, row: Row) -> Result<(), Refusal> {
        within(1, row.number, MOST_NUMBER, 1)?;
        within(1, row.cost, MOST_TICKS, 2)?;
        within(1, row.period, MOST_TICKS, 3)?;
        within(1, row.deadline, row.period, 4)?;
        within(0, row.section, row.cost, 5)?;
        if self.rows.iter().any(|r| r.number == row.number) {
            return refuse(1, 4);
        }
        if self.rows.len() == MOST_ROWS {
            return refuse(0, 5);
        }
        let at = self.rows.partition_point(|r| r.deadline <= row.deadline);
        self.rows.insert(at, row);
        Ok(())
    }

    fn strike(&mut self, number: u32) -> Result<(), Refusal> {
        within(1, number, MOST_NUMBER, 1)?;
        match self.rows.iter().position(|r| r.number == number) {
            Some(at) => {
                self.rows.remove(at);
                Ok(())
            }
            None => refuse(1, 6),
        }
    }

    fn pair(&mut self, pair: Pair) -> Result<(), Refusal> {
        within(1, pair.upper, MOST_NUMBER, 1)?;
        within(1, pair.lower, MOST_NUMBER, 2)?;
        if pair.upper == pair.lower {
            return refuse(0, 8);
        }
        if self
            .pairs
            .iter()
            .any(|p| p.upper == pair.upper && p.lower == pair.lower)
        {
            return refuse(0, 9);
        }
        if self.pairs.len() == MOST_PAIRS {
            return refuse(0, 10);
        }
        self.pairs.push(pair);
        Ok(())
    }

    fn map(
        &self,
        count: u32,
        choice: Choice,
        rule: Rule,
        out: &mut Vec<u8>,
    ) -> Result<(), Refusal> {
        let charged = |row: &Row| Row {
            cost: (row.cost + self.charge).min(MOST_CHARGED),
            ..*row
        };
        let table = self.rows.iter().map(charged).collect();
        let pile = Pile {
            choice,
            pairs: &self.pairs,
            margin: self.margin,
        };
        let Some((tasks, lines)) = plan(table, &pile, rule) else {
            return refuse(0, 12);
        };
        put_header(out, b"plan", [count, tasks, lines.len() as u32]);
        for line in lines {
            put_line(out, line);
        }
        Ok(())
    }
}

/// Puts the answers to a script.
fn answer(script: &[u8], out: &mut Vec<u8>) {
    if script.len() > MOST_BYTES {
        put_header(out, b"refused", [0, 0, 13]);
        return;
    }
    let mut session = Session::default();
    for (count, line) in (1..).zip(script.split_inclusive(|&b| b == b'\n')) {
        let line = line.strip_suffix(b"\n").unwrap_or(line);
        if let Err(refusal) = session.take(count, line, out) {
            put_header(out, b"refused", [count, refusal.field, refusal.code]);
        }
    }
}

fn main() -> io::Result<()> {
    let mut input = Vec::new();
    let mut out = Vec::new();
    match std::env::args().nth(1).as_deref() {
        None => {
            io::stdin()
                .take(MOST_BYTES as u64 + 1)
                .read_to_end(&mut input)?;
            answer(&input, &mut out);
        }
        Some("--many") => {
            io::stdin().read_to_end(&mut input)?;
            for script in input.split(|&b| b == 30) {
                answer(script, &mut out);
                out.extend_from_slice(b"--\n");
            }
        }
        Some(_) => {
            eprintln!("usage: plain [--many] < input > output");
            std::process::exit(2);
        }
    }
    io::stdout().write_all(&out)
}
