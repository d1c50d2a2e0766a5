//! The text of a script, the session that works through it, and the text of
//! the answers, written down from `docs/FORMAT.md` and `docs/CODES.md`.

use crate::mapping::{map, Rule};
use crate::rules::{charge_setting, margin_setting, refuse, Analysis, Pair, Pairs, Pile, Refusal, Row, Sheet};

const MOST_BYTES: usize = 65_536;
/// The answer to a script that has more bytes.
pub const TOO_LONG: &[u8] = b"refused,0,0,13\n";

/// The answers to one script.
pub fn answers(script: &[u8], orders_up_to: usize) -> Vec<u8> {
    if script.len() > MOST_BYTES {
        return TOO_LONG.to_vec();
    }
    let mut session = Session { orders_up_to, ..Session::default() };
    let mut text = String::new();
    for (before, line) in lines(script).iter().enumerate() {
        text += &session.answer(before + 1, line);
    }
    text.into_bytes()
}

/// The lines of a script, without the bytes 10 that end them.
pub fn lines(script: &[u8]) -> Vec<&[u8]> {
    let mut lines: Vec<&[u8]> = script.split(|byte| *byte == 10).collect();
    // What follows the last byte 10 is a line only if it has a byte.
    if lines.last().is_some_and(|last| last.is_empty()) {
        lines.pop();
    }
    lines
}

/// What an accepted line of a script says.
enum Statement {
    Row(Row),
    Strike(u32),
    Pair(Pair),
    Charge(u32),
    Margin(u32),
    Map(Analysis, Rule),
}

/// Reads a line: tries code 1, then code 2.
fn read(line: &[u8]) -> Result<Statement, Refusal> {
    let parts: Vec<&[u8]> = line.split(|byte| *byte == b',').collect();
    let (word, fields) = (parts[0], &parts[1..]);
    match (word, fields.len()) {
        (b"row", 5) => {
            let values = numbers(fields)?;
            Ok(Statement::Row(Row {
                number: values[0],
                cost: values[1],
                period: values[2],
                deadline: values[3],
                section: values[4],
            }))
        }
        (b"strike", 1) => Ok(Statement::Strike(numbers(fields)?[0])),
        (b"pair", 2) => {
            let values = numbers(fields)?;
            Ok(Statement::Pair(Pair { u: values[0], l: values[1] }))
        }
        (b"charge", 1) => Ok(Statement::Charge(numbers(fields)?[0])),
        (b"margin", 1) => Ok(Statement::Margin(numbers(fields)?[0])),
        (b"map", 2) => match (Analysis::named(fields[0]), Rule::named(fields[1])) {
            (Some(analysis), Some(rule)) => Ok(Statement::Map(analysis, rule)),
            _ => refuse(0, 1),
        },
        _ => refuse(0, 1),
    }
}

/// The values of all fields; the leftmost that is no number field is refused.
fn numbers(fields: &[&[u8]]) -> Result<Vec<u32>, Refusal> {
    let mut values = Vec::new();
    for (before, field) in fields.iter().enumerate() {
        match number(field) {
            Some(value) => values.push(value),
            None => return refuse(before as u32 + 1, 2),
        }
    }
    Ok(values)
}

/// The value of a number field: one to seven digits, no leading zero.
fn number(field: &[u8]) -> Option<u32> {
    if field.is_empty() || field.len() > 7 {
        return None;
    }
    if field.iter().any(|byte| *byte < 48 || *byte > 57) {
        return None;
    }
    if field.len() > 1 && field[0] == b'0' {
        return None;
    }
    let mut value = 0;
    for byte in field {
        value = value * 10 + u32::from(byte - 48);
    }
    Some(value)
}

/// The state of a session.
#[derive(Default)]
struct Session {
    sheet: Sheet,
    pairs: Pairs,
    charge: u32,
    margin: u32,
    orders_up_to: usize,
}

impl Session {
    /// Takes one line and gives the text of its answer.
    fn answer(&mut self, lineno: usize, line: &[u8]) -> String {
        match read(line).and_then(|statement| self.carry_out(lineno, statement)) {
            Ok(text) => text,
            Err(refusal) => format!("refused,{lineno},{},{}\n", refusal.field, refusal.code),
        }
    }

    fn carry_out(&mut self, lineno: usize, statement: Statement) -> Result<String, Refusal> {
        match statement {
            Statement::Row(row) => self.sheet.enter(row)?,
            Statement::Strike(number) => self.sheet.strike(number)?,
            Statement::Pair(pair) => self.pairs.add(pair)?,
            Statement::Charge(s) => self.charge = charge_setting(s)?,
            Statement::Margin(p) => self.margin = margin_setting(p)?,
            Statement::Map(analysis, rule) => return self.map(lineno, analysis, rule),
        }
        Ok(String::new())
    }

    fn map(&self, lineno: usize, analysis: Analysis, rule: Rule) -> Result<String, Refusal> {
        let plan = map(&self.sheet, &self.pile(analysis), rule, self.orders_up_to)?;
        let mut text = format!("plan,{lineno},{},{}\n", plan.tasks, plan.lines.len());
        for line in &plan.lines {
            text += &line.text();
        }
        Ok(text)
    }

    /// From the top: pairs, margin, charge, and the analysis.
    fn pile(&self, analysis: Analysis) -> Pile {
        let charge = Pile::Charge(self.charge, Box::new(Pile::Analysis(analysis)));
        let margin = Pile::Margin(self.margin, Box::new(charge));
        Pile::Pairs(self.pairs.clone(), Box::new(margin))
    }
}
