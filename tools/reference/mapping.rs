//! Mapping, plans, orders and the calls that ask about a task, written down
//! from `docs/RULES.md`.
//!
//! A mapping is made step by step and then held against the assurances that
//! the rules give about orders. A disagreement ends the program.

use crate::rules::{refuse, Mark, Pile, Question, Refusal, Row, Sheet, Verdict, MOST_ROWS};

/// Which candidates form a task.
#[derive(Clone, Copy, Debug, PartialEq, Eq)]
pub enum Rule {
    Equal,
    Divided,
}

impl Rule {
    pub fn named(word: &[u8]) -> Option<Rule> {
        match word {
            b"equal" => Some(Rule::Equal),
            b"divided" => Some(Rule::Divided),
            _ => None,
        }
    }
}

/// One line of a plan.
#[derive(Clone, Copy, Debug, PartialEq, Eq)]
pub struct Line {
    pub task: u32,
    pub place: u32,
    pub number: u32,
    pub response: u64,
}

impl Line {
    /// The text of the line.
    pub fn text(&self) -> String {
        format!("{},{},{},{}\n", self.task, self.place, self.number, self.response)
    }
}

/// What an accepted mapping produces.
#[derive(Clone, Debug, PartialEq, Eq)]
pub struct Plan {
    pub tasks: u32,
    pub lines: Vec<Line>,
}

/// A row that is on time with all unplaced rows above it.
#[derive(Clone, Copy)]
struct Candidate {
    /// The place of the row in sheet order.
    at: usize,
    row: Row,
    response: u64,
}

/// Maps a sheet. Every order is tried where at most `orders_up_to` rows stand.
pub fn map(sheet: &Sheet, pile: &Pile, rule: Rule, orders_up_to: usize) -> Result<Plan, Refusal> {
    let table = sheet.in_order();
    let outcome = map_table(&table, pile, rule);
    check_outcome(&table, pile, &outcome, orders_up_to);
    match outcome {
        Some(plan) => Ok(plan),
        None => refuse(0, 12),
    }
}

/// The steps that make task after task, or nothing if there is no candidate.
fn map_table(table: &[Row], pile: &Pile, rule: Rule) -> Option<Plan> {
    let mut placed = vec![false; table.len()];
    let mut plan = Plan { tasks: 0, lines: Vec::new() };
    while placed.contains(&false) {
        let candidates = candidates(table, pile, &placed);
        let members = members(&candidates, rule)?;
        plan.tasks += 1;
        for (before, member) in members.iter().enumerate() {
            placed[member.at] = true;
            plan.lines.push(Line {
                task: plan.tasks,
                place: before as u32 + 1,
                number: member.row.number,
                response: member.response,
            });
        }
    }
    Some(plan)
}

/// The unplaced rows that are on time with every unplaced row above and every
/// placed row below, in sheet order.
fn candidates(table: &[Row], pile: &Pile, placed: &[bool]) -> Vec<Candidate> {
    let mut found = Vec::new();
    for at in 0..table.len() {
        if placed[at] {
            continue;
        }
        let marks = placed.iter().map(|below| if *below { Mark::Below } else { Mark::Above }).collect();
        if let Verdict::OnTime(response) = well_formed(table, marks, at, pile) {
            found.push(Candidate { at, row: table[at], response });
        }
    }
    found
}

/// The candidates that the rule takes, or nothing if there is no lead.
fn members(candidates: &[Candidate], rule: Rule) -> Option<Vec<Candidate>> {
    let lead = candidates.last()?;
    let taken = |candidate: &&Candidate| match rule {
        Rule::Equal => candidate.row.period == lead.row.period,
        Rule::Divided => candidate.row.period % shortest_divisor(candidates, lead) == 0,
    };
    Some(candidates.iter().filter(taken).copied().collect())
}

/// Among the periods of the candidates, the shortest that divides the lead's.
fn shortest_divisor(candidates: &[Candidate], lead: &Candidate) -> u32 {
    let periods = candidates.iter().map(|candidate| candidate.row.period);
    periods.filter(|period| lead.row.period % period == 0).min().expect("the lead's period divides itself")
}

/// The verdict on a question over the sheet's table.
fn well_formed(table: &[Row], marks: Vec<Mark>, place: usize, pile: &Pile) -> Verdict {
    let question = Question { table: table.to_vec(), marks, place };
    pile.ask(&question).expect("a question over a sheet's table gets a verdict")
}

// ---- orders

/// The verdict on the row that is at this place of an order. The order lists
/// places of the table, the highest row first.
fn judge(table: &[Row], pile: &Pile, order: &[usize], rank: usize) -> Verdict {
    let mut marks = vec![Mark::Below; table.len()];
    for higher in &order[..rank] {
        marks[*higher] = Mark::Above;
    }
    well_formed(table, marks, order[rank], pile)
}

fn every_row_on_time(table: &[Row], pile: &Pile, order: &[usize]) -> bool {
    (0..order.len()).all(|rank| judge(table, pile, order, rank) != Verdict::Late)
}

/// Whether some order has every row on time: all orders that begin as given.
fn some_order(table: &[Row], pile: &Pile, begin: &mut Vec<usize>) -> bool {
    if begin.len() == table.len() {
        return every_row_on_time(table, pile, begin);
    }
    for at in 0..table.len() {
        if begin.contains(&at) {
            continue;
        }
        begin.push(at);
        let found = some_order(table, pile, begin);
        begin.pop();
        if found {
            return true;
        }
    }
    false
}

/// The plan's order: a greater task is higher, within a task a smaller place.
fn order_of(table: &[Row], plan: &Plan) -> Vec<usize> {
    let mut lines = plan.lines.clone();
    lines.sort_by_key(|line| (std::cmp::Reverse(line.task), line.place));
    let at = |number| table.iter().position(|row| row.number == number).expect("a line names a standing row");
    lines.iter().map(|line| at(line.number)).collect()
}

/// Whether every order is tried: not with many rows or very long deadlines,
/// where it would take too long.
fn few_orders(table: &[Row], orders_up_to: usize) -> bool {
    if table.len() > orders_up_to {
        return false;
    }
    let orders: u64 = (1..=table.len() as u64).product();
    let ticks: u64 = table.iter().map(|row| u64::from(row.deadline)).sum();
    orders * ticks <= 50_000_000
}

/// Holds the outcome of a mapping against the assurances of the rules.
fn check_outcome(table: &[Row], pile: &Pile, outcome: &Option<Plan>, orders_up_to: usize) {
    if let Some(plan) = outcome {
        check_plan(table, pile, plan);
    }
    if few_orders(table, orders_up_to) {
        let schedulable = some_order(table, pile, &mut Vec::new());
        assert!(
            schedulable == outcome.is_some(),
            "trying every order says {schedulable}, the mapping says otherwise: {table:?} {pile:?} {outcome:?}"
        );
    }
}

/// Each row is on time in the plan's order, with a response not greater than
/// its line's, which is from the row's cost to its deadline.
fn check_plan(table: &[Row], pile: &Pile, plan: &Plan) {
    let order = order_of(table, plan);
    assert!(order.len() == table.len(), "the plan has not one line for each row: {table:?} {plan:?}");
    for (rank, at) in order.iter().enumerate() {
        let row = table[*at];
        let line = plan.lines.iter().find(|line| line.number == row.number).expect("every row has a line");
        let in_bounds = u64::from(row.cost) <= line.response && line.response <= u64::from(row.deadline);
        assert!(in_bounds, "a response is out of bounds: {table:?} {pile:?} {plan:?}");
        match judge(table, pile, &order, rank) {
            Verdict::OnTime(response) if response <= line.response => {}
            other => panic!("row {} is {other:?} in the plan's order: {table:?} {pile:?} {plan:?}", row.number),
        }
    }
}

// ---- asking about a task

/// The greatest activation that can be asked for.
const GREATEST_ACTIVATION: u32 = 1_000_000;

/// The shortest period, the shortest deadline and the summed cost of a task.
#[derive(Clone, Copy, Debug, PartialEq, Eq)]
pub struct Totals {
    pub period: u64,
    pub deadline: u64,
    pub cost: u64,
}

fn check_length(lines: &[Line]) -> Result<(), Refusal> {
    if lines.len() > MOST_ROWS {
        return refuse(0, 7);
    }
    Ok(())
}

/// The first unbroken run of lines that have this task.
pub fn run(lines: &[Line], task: u32) -> Result<Vec<Line>, Refusal> {
    check_length(lines)?;
    let after_others = lines.iter().skip_while(|line| line.task != task);
    let run: Vec<Line> = after_others.take_while(|line| line.task == task).copied().collect();
    if run.is_empty() {
        return refuse(0, 15);
    }
    Ok(run)
}

/// The standing rows of the lines of the run, one for each line. It is refused
/// with 6 or with 15, never both: a run that is missing names no number.
fn task_rows(sheet: &Sheet, lines: &[Line], task: u32) -> Result<Vec<Row>, Refusal> {
    let mut rows = Vec::new();
    for line in run(lines, task)? {
        match sheet.standing(line.number) {
            Some(row) => rows.push(row),
            None => return refuse(0, 6),
        }
    }
    Ok(rows)
}

/// The totals of a task.
pub fn totals(sheet: &Sheet, lines: &[Line], task: u32) -> Result<Totals, Refusal> {
    let rows = task_rows(sheet, lines, task)?;
    Ok(Totals {
        period: shortest_period(&rows),
        deadline: rows.iter().map(|row| u64::from(row.deadline)).min().expect("a run has a line"),
        cost: rows.iter().map(|row| u64::from(row.cost)).sum(),
    })
}

/// The load of activation m: the cost of the members whose period divides m × t.
pub fn load(sheet: &Sheet, lines: &[Line], task: u32, m: u32) -> Result<u64, Refusal> {
    check_length(lines)?;
    if m > GREATEST_ACTIVATION {
        return refuse(0, 3);
    }
    let rows = task_rows(sheet, lines, task)?;
    let time = u64::from(m) * shortest_period(&rows);
    let released = rows.iter().filter(|row| time % u64::from(row.period) == 0);
    Ok(released.map(|row| u64::from(row.cost)).sum())
}

/// The longest member period divided by t, rounded down.
pub fn cycle(sheet: &Sheet, lines: &[Line], task: u32) -> Result<u64, Refusal> {
    let rows = task_rows(sheet, lines, task)?;
    let longest = rows.iter().map(|row| u64::from(row.period)).max().expect("a run has a line");
    Ok(longest / shortest_period(&rows))
}

fn shortest_period(rows: &[Row]) -> u64 {
    rows.iter().map(|row| u64::from(row.period)).min().expect("a run has a line")
}
