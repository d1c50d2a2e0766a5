//! Tables: records that enter rows, pile up layers, map, ask questions and ask
//! about tasks. The format has no refusal of a malformed record: it ends the
//! program.
//!
//! Input, one record a line:
//!
//!     table,A                                  a new table; A is exact, linear or sections
//!     row,number,cost,period,deadline,section  listed for `ask`, and entered into the sheet
//!     strike,number                            from the sheet only
//!     charge,s   margin,p   pairs,u,l,u,l,...  one more layer on the pile
//!     map,G                                    G is equal or divided
//!     ask,MARKS,place                          MARKS are letters a (above) and b (below)
//!     line,task,place,number,response          one more plan line
//!     run,task   totals,task   load,task,m   cycle,task
//!
//! Output: `table,k` before the answers of table k, and the answers. A plan
//! replaces the list of plan lines that the last four records ask about.

use crate::mapping::{cycle, load, map, run, totals, Line, Rule};
use crate::rules::{charge_setting, margin_setting, Analysis, Mark, Pair, Pairs, Pile};
use crate::rules::{Question, Refusal, Row, Sheet, Verdict};

/// The answers to all records.
pub fn answers(input: &str, orders_up_to: usize) -> String {
    let mut text = String::new();
    let mut table = None;
    let mut count = 0;
    for record in input.lines() {
        let fields: Vec<&str> = record.split(',').collect();
        if fields[0] == "table" {
            count += 1;
            table = Some(Table::new(fields[1], orders_up_to));
            text += &format!("table,{count}\n");
        } else {
            let table = table.as_mut().expect("the first record begins a table");
            match table.answer(fields[0], &fields[1..]) {
                Ok(answer) => text += &answer,
                Err(refusal) => text += &format!("refused,{},{}\n", refusal.field, refusal.code),
            }
        }
    }
    text
}

/// What the records of one table have made.
struct Table {
    /// All rows as they were given, for `ask`.
    rows: Vec<Row>,
    sheet: Sheet,
    pile: Pile,
    lines: Vec<Line>,
    orders_up_to: usize,
}

impl Table {
    fn new(analysis: &str, orders_up_to: usize) -> Table {
        let analysis = Analysis::named(analysis.as_bytes()).expect("a known analysis");
        Table {
            rows: Vec::new(),
            sheet: Sheet::default(),
            pile: Pile::Analysis(analysis),
            lines: Vec::new(),
            orders_up_to,
        }
    }

    /// The answer to one record.
    fn answer(&mut self, word: &str, fields: &[&str]) -> Result<String, Refusal> {
        match (word, fields.len()) {
            ("row", 5) => self.row(row(fields)),
            ("strike", 1) => self.sheet.strike(value(fields[0])).map(|()| String::new()),
            ("charge", 1) => Ok(self.cover(|under| Pile::Charge(setting(charge_setting, fields[0]), under))),
            ("margin", 1) => Ok(self.cover(|under| Pile::Margin(setting(margin_setting, fields[0]), under))),
            ("pairs", _) => Ok(self.cover(|under| Pile::Pairs(pairs(fields), under))),
            ("map", 1) => self.map(Rule::named(fields[0].as_bytes()).expect("a known rule")),
            ("ask", 2) => self.ask(fields[0], value(fields[1])),
            ("line", 4) => {
                self.lines.push(line(fields));
                Ok(String::new())
            }
            ("run", 1) => self.run(value(fields[0])),
            ("totals", 1) => self.totals(value(fields[0])),
            ("load", 2) => self.load(value(fields[0]), value(fields[1])),
            ("cycle", 1) => self.cycle(value(fields[0])),
            _ => panic!("a malformed record: {word},{}", fields.join(",")),
        }
    }

    fn row(&mut self, row: Row) -> Result<String, Refusal> {
        self.rows.push(row);
        self.sheet.enter(row)?;
        Ok(String::new())
    }

    /// Puts one more layer on the pile.
    fn cover(&mut self, layer: impl FnOnce(Box<Pile>) -> Pile) -> String {
        self.pile = layer(Box::new(self.pile.clone()));
        String::new()
    }

    fn map(&mut self, rule: Rule) -> Result<String, Refusal> {
        let plan = map(&self.sheet, &self.pile, rule, self.orders_up_to)?;
        self.lines = plan.lines;
        Ok(format!("plan,{},{}\n", plan.tasks, self.lines.len()) + &text_of(&self.lines))
    }

    fn ask(&self, letters: &str, place: u32) -> Result<String, Refusal> {
        let marks = letters.chars().map(mark).collect();
        let question = Question { table: self.rows.clone(), marks, place: place as usize };
        Ok(match self.pile.ask(&question)? {
            Verdict::OnTime(response) => format!("ontime,{response}\n"),
            Verdict::Late => String::from("late\n"),
        })
    }

    fn run(&self, task: u32) -> Result<String, Refusal> {
        let lines = run(&self.lines, task)?;
        Ok(format!("run,{}\n", lines.len()) + &text_of(&lines))
    }

    fn totals(&self, task: u32) -> Result<String, Refusal> {
        let totals = totals(&self.sheet, &self.lines, task)?;
        Ok(format!("totals,{},{},{}\n", totals.period, totals.deadline, totals.cost))
    }

    fn load(&self, task: u32, m: u32) -> Result<String, Refusal> {
        Ok(format!("load,{}\n", load(&self.sheet, &self.lines, task, m)?))
    }

    fn cycle(&self, task: u32) -> Result<String, Refusal> {
        Ok(format!("cycle,{}\n", cycle(&self.sheet, &self.lines, task)?))
    }
}

fn text_of(lines: &[Line]) -> String {
    lines.iter().map(Line::text).collect()
}

fn value(field: &str) -> u32 {
    field.parse().unwrap_or_else(|_| panic!("not a number: {field:?}"))
}

/// A setting that has to be in range.
fn setting(in_range: fn(u32) -> Result<u32, Refusal>, field: &str) -> u32 {
    in_range(value(field)).expect("a setting in range")
}

fn mark(letter: char) -> Mark {
    match letter {
        'a' => Mark::Above,
        'b' => Mark::Below,
        _ => panic!("not a mark: {letter:?}"),
    }
}

fn row(fields: &[&str]) -> Row {
    Row {
        number: value(fields[0]),
        cost: value(fields[1]),
        period: value(fields[2]),
        deadline: value(fields[3]),
        section: value(fields[4]),
    }
}

fn line(fields: &[&str]) -> Line {
    Line {
        task: value(fields[0]),
        place: value(fields[1]),
        number: value(fields[2]),
        response: u64::from(value(fields[3])),
    }
}

fn pairs(fields: &[&str]) -> Pairs {
    assert!(fields.len() % 2 == 0, "a pair without its second number");
    let mut pairs = Pairs::default();
    for pair in fields.chunks(2) {
        pairs.add(Pair { u: value(pair[0]), l: value(pair[1]) }).expect("a list of pairs in range, none twice");
    }
    pairs
}
