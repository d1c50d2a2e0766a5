//! Values that were worked out by hand, and the four laws on random questions.

use crate::mapping::{cycle, load, map, run, totals, Line, Rule, Totals};
use crate::random::Random;
use crate::rules::{Analysis, Mark, Pair, Pairs, Pile, Question, Refusal, Row, Sheet, Verdict};
use crate::script;
use crate::tables;

const S: [[u32; 5]; 3] = [[1, 1000, 5000, 5000, 0], [2, 2000, 10000, 10000, 0], [3, 1000, 5000, 4000, 0]];
const V: [[u32; 5]; 2] = [[1, 3, 6, 6, 0], [2, 3, 8, 8, 0]];

fn row(values: &[u32; 5]) -> Row {
    let [number, cost, period, deadline, section] = *values;
    Row { number, cost, period, deadline, section }
}

fn sheet(rows: &[[u32; 5]]) -> Sheet {
    let mut sheet = Sheet::default();
    for values in rows {
        sheet.enter(row(values)).expect("a row that can be entered");
    }
    sheet
}

fn pile(analysis: Analysis) -> Pile {
    Pile::Analysis(analysis)
}

fn exact() -> Pile {
    pile(Analysis::Exact)
}

fn pairs(list: &[(u32, u32)], under: Pile) -> Pile {
    let mut pairs = Pairs::default();
    for (u, l) in list {
        pairs.add(Pair { u: *u, l: *l }).expect("a pair that can be added");
    }
    Pile::Pairs(pairs, Box::new(under))
}

fn charge(s: u32, under: Pile) -> Pile {
    Pile::Charge(s, Box::new(under))
}

fn margin(p: u32, under: Pile) -> Pile {
    Pile::Margin(p, Box::new(under))
}

/// The lines of a plan as lists of values, or nothing if unschedulable.
fn mapped(rows: &[[u32; 5]], pile: Pile, rule: Rule) -> Option<Vec<[u64; 4]>> {
    match map(&sheet(rows), &pile, rule, 6) {
        Ok(plan) => {
            let values = |line: &Line| [line.task.into(), line.place.into(), line.number.into(), line.response];
            Some(plan.lines.iter().map(values).collect())
        }
        Err(refusal) => {
            assert_eq!(refusal, Refusal { field: 0, code: 12 });
            None
        }
    }
}

fn marks(letters: &str) -> Vec<Mark> {
    letters.chars().map(|letter| if letter == 'a' { Mark::Above } else { Mark::Below }).collect()
}

fn asked(rows: &[[u32; 5]], pile: &Pile, letters: &str, place: usize) -> Result<Verdict, Refusal> {
    pile.ask(&Question { table: rows.iter().map(row).collect(), marks: marks(letters), place })
}

#[test]
fn the_example_of_three_rows() {
    let equal = vec![[1, 1, 2, 4000], [2, 1, 3, 2000], [2, 2, 1, 2000]];
    assert_eq!(mapped(&S, exact(), Rule::Equal), Some(equal));
    let divided = vec![[1, 1, 3, 4000], [1, 2, 1, 4000], [1, 3, 2, 4000]];
    assert_eq!(mapped(&S, exact(), Rule::Divided), Some(divided));
}

#[test]
fn one_row() {
    assert_eq!(asked(&[[1, 5, 5, 5, 0]], &exact(), "a", 0), Ok(Verdict::OnTime(5)));
    assert_eq!(asked(&[[1, 6, 5, 5, 0]], &exact(), "a", 0), Ok(Verdict::Late));
    assert_eq!(mapped(&[[1, 6, 5, 5, 0]], exact(), Rule::Equal), None);
}

#[test]
fn no_row() {
    for rule in [Rule::Equal, Rule::Divided] {
        let plan = map(&Sheet::default(), &exact(), rule, 6).expect("a plan");
        assert_eq!((plan.tasks, plan.lines.len()), (0, 0));
    }
}

#[test]
fn two_rows_under_each_analysis_and_layer() {
    let first_lowest = Some(vec![[1, 1, 1, 6], [2, 1, 2, 3]]);
    let second_lowest = Some(vec![[1, 1, 2, 6], [2, 1, 1, 3]]);
    assert_eq!(mapped(&V, exact(), Rule::Equal), second_lowest);
    assert_eq!(mapped(&V, pile(Analysis::Linear), Rule::Equal), first_lowest);
    assert_eq!(mapped(&V, pairs(&[(2, 1)], exact()), Rule::Equal), first_lowest);
    assert_eq!(mapped(&V, pairs(&[(1, 2), (2, 1)], exact()), Rule::Equal), None);
    assert_eq!(mapped(&V, charge(1, exact()), Rule::Equal), None);
    assert_eq!(asked(&V, &margin(25, exact()), "ab", 1), Ok(Verdict::OnTime(6)));
    assert_eq!(asked(&V, &margin(26, exact()), "ab", 1), Ok(Verdict::Late));
}

#[test]
fn blocking_by_a_row_below() {
    let sections = pile(Analysis::Sections);
    assert_eq!(asked(&[[1, 2, 10, 5, 0], [2, 4, 20, 20, 3]], &sections, "bb", 0), Ok(Verdict::OnTime(5)));
    assert_eq!(asked(&[[1, 2, 10, 5, 0], [2, 4, 20, 20, 4]], &sections, "bb", 0), Ok(Verdict::Late));
}

#[test]
fn the_least_of_two_solutions() {
    assert_eq!(asked(&[[1, 1, 2, 2, 0], [2, 1, 3, 3, 0]], &exact(), "ab", 1), Ok(Verdict::OnTime(2)));
}

#[test]
fn refused_questions() {
    let malformed = Err(Refusal { field: 0, code: 7 });
    assert_eq!(asked(&[], &exact(), "", 0), malformed);
    assert_eq!(asked(&V, &exact(), "aa", 2), malformed);
    assert_eq!(asked(&V, &exact(), "aaa", 0), malformed);
    assert_eq!(asked(&[[1, 1, 9, 9, 0]; 129], &exact(), &"a".repeat(129), 0), malformed);
    assert_eq!(asked(&[[1, 1, 9, 9, 0], [0, 1, 9, 9, 2]], &exact(), "aa", 0), Err(Refusal { field: 1, code: 3 }));
    assert_eq!(asked(&[[1, 1_000_002, 9, 9, 0]], &exact(), "a", 0), Err(Refusal { field: 2, code: 3 }));
    assert_eq!(asked(&[[1, 1_000_001, 9, 9, 0]], &exact(), "a", 0), Ok(Verdict::Late));
}

#[test]
fn questions_about_a_task() {
    let line = |task, number| Line { task, place: 1, number, response: 1 };
    // The run of task 1 is broken by task 2; row 1 is in it twice.
    let lines = [line(1, 1), line(1, 2), line(1, 1), line(2, 9), line(1, 3)];
    assert_eq!(run(&lines, 1).map(|run| run.len()), Ok(3));
    assert_eq!(totals(&sheet(&V), &lines, 1), Ok(Totals { period: 6, deadline: 6, cost: 9 }));
    assert_eq!(load(&sheet(&V), &lines, 1, 0), Ok(9));
    assert_eq!(load(&sheet(&V), &lines, 1, 1), Ok(6));
    assert_eq!(load(&sheet(&V), &lines, 1, 4), Ok(9));
    assert_eq!(cycle(&sheet(&V), &lines, 1), Ok(1));
    let refused = |code| Refusal { field: 0, code };
    assert_eq!(load(&sheet(&V), &lines, 7, 1_000_001), Err(refused(3)));
    assert_eq!(totals(&sheet(&V), &lines, 2), Err(refused(6)));
    assert_eq!(cycle(&sheet(&V), &lines, 3), Err(refused(15)));
    assert_eq!(load(&sheet(&V), &[lines[0]; 129], 1, 1_000_001), Err(refused(7)));
}

#[test]
fn answers_to_a_script() {
    let rows = "row,1,1000,5000,5000,0\nrow,2,2000,10000,10000,0\nrow,3,1000,5000,4000,0\n";
    let script = format!("{rows}map,exact,equal\nstrike,8");
    let expected = "plan,4,2,3\n1,1,2,4000\n2,1,3,2000\n2,2,1,2000\nrefused,5,1,6\n";
    assert_eq!(script::answers(script.as_bytes(), 6), expected.as_bytes());
    assert_eq!(script::answers(b"\na\n\n", 6), b"refused,1,0,1\nrefused,2,0,1\nrefused,3,0,1\n");
    assert_eq!(script::answers(&[10; 65_537], 6), b"refused,0,0,13\n");
}

#[test]
fn answers_to_tables() {
    let input = "table,exact\nrow,1,3,6,6,0\nrow,1,3,8,8,0\nrow,2,3,8,8,0\nmargin,25\nmap,equal\nask,aba,2\nrun,2\nload,1,0\n\
                 table,linear\nmap,divided\ncycle,1\n";
    let expected = "table,1\nrefused,1,4\nplan,2,2\n1,1,2,6\n2,1,1,3\nontime,6\nrun,1\n2,1,1,3\nload,3\n\
                    table,2\nplan,0,0\nrefused,0,15\n";
    assert_eq!(tables::answers(input, 6), expected);
}

// ---- the four laws

fn random_row(random: &mut Random) -> Row {
    let period = random.from_to(1, 24) as u32;
    let cost = random.from_to(1, u64::from(period / 3 + 1)) as u32;
    Row {
        number: random.from_to(1, 5) as u32,
        cost,
        period,
        deadline: random.from_to(u64::from(cost.min(period)), u64::from(period)) as u32,
        section: random.from_to(0, u64::from(cost)) as u32,
    }
}

fn random_pile(random: &mut Random) -> Pile {
    let mut pile = pile(*random.one_of(&[Analysis::Exact, Analysis::Linear, Analysis::Sections]));
    for _ in 0..random.from_to(0, 4) {
        pile = match random.from_to(1, 3) {
            1 => charge(random.from_to(0, 2) as u32, pile),
            2 => margin(random.from_to(0, 40) as u32, pile),
            _ => pairs(&[(random.from_to(1, 2) as u32, random.from_to(3, 5) as u32)], pile),
        };
    }
    pile
}

fn random_question(random: &mut Random) -> Question {
    let rows = random.from_to(1, 6);
    let table: Vec<Row> = (0..rows).map(|_| random_row(random)).collect();
    let marks = table.iter().map(|_| *random.one_of(&[Mark::Above, Mark::Below])).collect();
    Question { place: random.below(table.len()), table, marks }
}

/// The question without the row at this place.
fn withdrawn(question: &Question, at: usize) -> Question {
    let mut fewer = question.clone();
    fewer.table.remove(at);
    fewer.marks.remove(at);
    fewer.place -= usize::from(at < question.place);
    fewer
}

fn with_mark(question: &Question, at: usize, mark: Mark) -> Question {
    let mut other = question.clone();
    other.marks[at] = mark;
    other
}

#[test]
fn four_laws() {
    let mut random = Random::new(4);
    let (mut on_time, mut late) = (0, 0);
    for _ in 0..200_000 {
        let (pile, question) = (random_pile(&mut random), random_question(&mut random));
        let verdict = |question: &Question| pile.ask(question).expect("a verdict");
        let own = question.place;
        let first = verdict(&question);
        assert_eq!(verdict(&with_mark(&question, own, Mark::Above)), first, "own mark: {pile:?} {question:?}");
        assert_eq!(verdict(&with_mark(&question, own, Mark::Below)), first, "own mark: {pile:?} {question:?}");
        let Verdict::OnTime(response) = first else {
            late += 1;
            continue;
        };
        on_time += 1;
        let asked = question.table[own];
        let in_bounds = u64::from(asked.cost) <= response && response <= u64::from(asked.deadline);
        assert!(in_bounds, "bounds: {pile:?} {question:?} {response}");
        let no_greater = |other: &Question| matches!(verdict(other), Verdict::OnTime(now) if now <= response);
        for at in 0..question.table.len() {
            if at == own {
                continue;
            }
            match question.marks[at] {
                Mark::Above => {
                    let promoted = with_mark(&question, at, Mark::Below);
                    assert!(no_greater(&promoted), "promotion: {pile:?} {question:?} {at}");
                }
                Mark::Below => {
                    let fewer = withdrawn(&question, at);
                    assert!(no_greater(&fewer), "withdrawal: {pile:?} {question:?} {at}");
                }
            }
        }
    }
    assert!(on_time > 20_000 && late > 20_000, "{on_time} on time, {late} late");
}

#[test]
fn random_mappings_agree_with_every_order() {
    // The comparison itself is part of every mapping.
    let mut random = Random::new(5);
    let (mut plans, mut unschedulable) = (0, 0);
    for _ in 0..5_000 {
        let mut sheet = Sheet::default();
        for number in 1..=random.from_to(0, 5) as u32 {
            sheet.enter(Row { number, ..random_row(&mut random) }).expect("a row in range");
        }
        let pile = random_pile(&mut random);
        let equal = map(&sheet, &pile, Rule::Equal, 6);
        let divided = map(&sheet, &pile, Rule::Divided, 6);
        assert_eq!(equal.is_ok(), divided.is_ok(), "a rule decides whether there is a plan: {sheet:?} {pile:?}");
        if equal.is_ok() {
            plans += 1;
        } else {
            unschedulable += 1;
        }
    }
    assert!(plans > 500 && unschedulable > 500, "{plans} plans, {unschedulable} unschedulable");
}
