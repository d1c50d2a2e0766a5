//! Compares the program `mapper` with the reference on random scripts and on
//! mutations of them, one process for each script.

use crate::random::Random;
use crate::script;
use std::collections::BTreeMap;
use std::io::Write;
use std::process::{Command, Stdio};

/// Every order is tried for sheets of up to this many rows.
const ORDERS_UP_TO: usize = 5;
/// A script that is answered differently is written to this file among the
/// temporary ones.
const DIFFERENCE: &str = "mapper_fuzz_difference.script";

/// Compares on so many scripts. True if all answers are the same.
pub fn fuzz(mapper: &str, scripts: u64, seed: u64) -> bool {
    let mut random = Random::new(seed);
    let mut counts = Counts::default();
    for _ in 0..scripts {
        let mut script = random_script(&mut random);
        let mutated = random.percent(45);
        if mutated {
            for _ in 0..random.from_to(1, 4) {
                mutate(&mut script, &mut random);
            }
        }
        let expected = script::answers(&script, ORDERS_UP_TO);
        if run(mapper, &script) != Ok(expected.clone()) {
            report(mapper, script);
            return false;
        }
        counts.add(&script, mutated, &expected);
    }
    counts.print();
    true
}

/// What was compared.
#[derive(Default)]
struct Counts {
    scripts: u64,
    mutated: u64,
    lines: u64,
    plans: u64,
    plan_lines: u64,
    refusals: BTreeMap<u32, u64>,
}

impl Counts {
    fn add(&mut self, script: &[u8], mutated: bool, answers: &[u8]) {
        self.scripts += 1;
        self.mutated += u64::from(mutated);
        if answers != script::TOO_LONG {
            self.lines += script::lines(script).len() as u64;
        }
        for answer in script::lines(answers) {
            let text = std::str::from_utf8(answer).expect("answers are ASCII");
            if text.starts_with("plan,") {
                self.plans += 1;
            } else if text.starts_with("refused,") {
                let code = text.rsplit(',').next().and_then(|code| code.parse().ok()).expect("a code");
                *self.refusals.entry(code).or_default() += 1;
            } else {
                self.plan_lines += 1;
            }
        }
    }

    fn print(&self) {
        println!("scripts {}, of them mutated {}, lines {}", self.scripts, self.mutated, self.lines);
        println!("plans {} with {} lines", self.plans, self.plan_lines);
        for (code, count) in &self.refusals {
            let name = if *code == 12 { " (unschedulable)" } else { "" };
            println!("refused with {code}{name}: {count}");
        }
    }
}

// ---- running and reporting

/// The answers of the program, or what went wrong with it.
fn run(mapper: &str, script: &[u8]) -> Result<Vec<u8>, String> {
    let mut child = Command::new(mapper)
        .stdin(Stdio::piped())
        .stdout(Stdio::piped())
        .spawn()
        .unwrap_or_else(|error| panic!("{mapper} cannot be started: {error}"));
    let mut stdin = child.stdin.take().expect("a pipe");
    let output = std::thread::scope(|scope| {
        // The program may stop reading a script that is too long.
        scope.spawn(move || stdin.write_all(script).ok());
        child.wait_with_output().expect("the program ends")
    });
    if output.status.code() == Some(0) {
        Ok(output.stdout)
    } else {
        Err(format!("{}", output.status))
    }
}

/// Shrinks a script that is answered differently, and shows it.
fn report(mapper: &str, script: Vec<u8>) {
    let differs = |script: &[u8]| run(mapper, script) != Ok(script::answers(script, ORDERS_UP_TO));
    let file = std::env::temp_dir().join(DIFFERENCE);
    std::fs::write(&file, &script).expect("the script can be written");
    println!("a difference; the whole script is in {}", file.display());
    let small = shrink(script, differs);
    println!("---- the script without the lines that do not matter\n{}", shown(&small));
    println!("---- the reference\n{}", shown(&script::answers(&small, ORDERS_UP_TO)));
    match run(mapper, &small) {
        Ok(answers) => println!("---- the program\n{}", shown(&answers)),
        Err(failure) => println!("---- the program failed: {failure}"),
    }
}

fn shown(bytes: &[u8]) -> String {
    let begin = &bytes[..bytes.len().min(20_000)];
    begin.escape_ascii().to_string().replace("\\n", "\n")
}

/// Drops lines as long as the difference stays: many at once first.
fn shrink(script: Vec<u8>, differs: impl Fn(&[u8]) -> bool) -> Vec<u8> {
    let mut lines: Vec<Vec<u8>> = script.split_inclusive(|byte| *byte == 10).map(<[u8]>::to_vec).collect();
    let mut many = lines.len();
    while many > 0 {
        let mut at = 0;
        while at < lines.len() {
            let mut fewer = lines.clone();
            fewer.drain(at..lines.len().min(at + many));
            if differs(&fewer.concat()) {
                lines = fewer;
            } else {
                at += many;
            }
        }
        many /= 2;
    }
    lines.concat()
}

// ---- random scripts

/// What the rows of one script are like.
struct Style {
    numbers: u64,
    periods: Vec<u64>,
    /// The load that a row has at most, in percent.
    load: u64,
}

impl Style {
    fn new(rows: u64, random: &mut Random) -> Style {
        let longest = match random.from_to(1, 100) {
            1..=60 => 20,
            61..=96 => 60,
            _ => 2000,
        };
        let kinds = random.from_to(1, 5);
        let periods = (0..kinds).map(|_| random.from_to(2, longest)).collect();
        let numbers = *random.one_of(&[rows + 2, rows + 2, 2 * rows + 1, 65_535]);
        Style { numbers, periods, load: random.from_to(60, 260) / rows.max(1) }
    }

    fn number(&self, random: &mut Random) -> u64 {
        random.from_to(1, self.numbers)
    }

    fn row(&self, random: &mut Random) -> String {
        let period = *random.one_of(&self.periods) * *random.one_of(&[1, 1, 1, 2]);
        let cost = random.from_to(1, (period * self.load / 100).max(1));
        let deadline = if random.percent(50) { period } else { random.from_to(cost.min(period), period) };
        let section = if random.percent(50) { 0 } else { random.from_to(0, cost.min(4)) };
        format!("row,{},{cost},{period},{deadline},{section}", self.number(random))
    }

    /// A line that is no row.
    fn other(&self, random: &mut Random) -> String {
        match random.from_to(1, 100) {
            1..=45 => map_line(random),
            46..=65 => format!("strike,{}", self.number(random)),
            66..=80 => format!("pair,{},{}", self.number(random), self.number(random)),
            81..=88 => format!("charge,{}", random.one_of(&[0, 0, 1, 1, 2, 10, 10_000, 10_001])),
            89..=96 => format!("margin,{}", random.one_of(&[0, 0, 5, 10, 20, 25, 50, 99, 100])),
            _ => String::from(*random.one_of(&["", "row", "strike", "map,exact", "pairs,1,2", "charge,", "margin,01"])),
        }
    }
}

fn map_line(random: &mut Random) -> String {
    let analysis = random.one_of(&["exact", "linear", "sections"]);
    let rule = random.one_of(&["equal", "divided"]);
    format!("map,{analysis},{rule}")
}

fn random_script(random: &mut Random) -> Vec<u8> {
    let rows = match random.from_to(1, 2000) {
        1..=40 => 0,
        41..=1700 => random.from_to(1, 6),
        1701..=1960 => random.from_to(7, 12),
        1961..=1998 => random.from_to(13, 30),
        _ => random.from_to(120, 135),
    };
    let style = Style::new(rows, random);
    let mut lines = Vec::new();
    for at in 0..rows {
        while random.percent(if rows > 30 { 1 } else { 20 }) {
            lines.push(style.other(random));
        }
        lines.push(if rows > 30 { numbered(&style, at + 1, random) } else { style.row(random) });
    }
    for _ in 0..random.from_to(1, if rows > 30 { 2 } else { 4 }) {
        lines.push(if random.percent(60) { map_line(random) } else { style.other(random) });
    }
    if random.from_to(1, 200) == 1 {
        many_pairs(&style, &mut lines, random);
    }
    let mut script = lines.join("\n").into_bytes();
    if random.percent(90) {
        script.push(10);
    }
    if random.from_to(1, 1000) == 1 {
        lengthen(&mut script, random);
    }
    script
}

/// A row with this number, so that a sheet can become full.
fn numbered(style: &Style, number: u64, random: &mut Random) -> String {
    let row = style.row(random);
    let rest: Vec<&str> = row.splitn(3, ',').collect();
    format!("row,{number},{}", rest[2])
}

/// About as many pairs as a list can have, before the last line.
fn many_pairs(style: &Style, lines: &mut Vec<String>, random: &mut Random) {
    let last = lines.pop().expect("a script has a line");
    for _ in 0..random.from_to(28, 45) {
        lines.push(format!("pair,{},{}", style.number(random) + random.from_to(0, 6), style.number(random)));
    }
    lines.push(last);
}

/// Lengthens a script to about the greatest length.
fn lengthen(script: &mut Vec<u8>, random: &mut Random) {
    let length = *random.one_of(&[65_535, 65_536, 65_537, 66_000, 140_000]);
    let filling: &[u8] = random.one_of::<&[u8]>(&[b"\n", b"strike,7\n", b"x", b"row,1,3,6,6,0\n"]);
    let mut longer = Vec::new();
    while longer.len() + script.len() < length {
        longer.extend(filling);
    }
    longer.truncate(length.saturating_sub(script.len()));
    if random.percent(50) {
        script.extend(longer);
    } else {
        longer.append(script);
        *script = longer;
    }
}

// ---- mutations

/// Numbers at the ends of ranges.
const EDGES: [u64; 17] =
    [0, 1, 2, 31, 32, 33, 98, 99, 100, 9_999, 10_000, 10_001, 65_535, 65_536, 999_999, 1_000_000, 1_000_001];
/// Texts that are no number fields, or almost none.
const ODD: [&str; 14] =
    ["", "00", "07", "+1", "-1", " 1", "1 ", "1.0", "9999999", "10000000", "4294967297", "x", "1\r", "\t"];

/// Changes a script a little.
fn mutate(script: &mut Vec<u8>, random: &mut Random) {
    if script.is_empty() {
        script.push(random.from_to(0, 255) as u8);
        return;
    }
    let at = random.below(script.len());
    match random.from_to(1, 16) {
        1 => script[at] ^= 1 << random.from_to(0, 7),
        2 => script[at] = *random.one_of(b"0123456789,\n\r x"),
        3 => script.insert(at, *random.one_of(b"0123456789,,\n\n\r x\xff\x00")),
        4 => {
            script.remove(at);
        }
        5 => script.truncate(at),
        6 => script.retain(|byte| *byte != 13),
        7 => with_returns(script, random),
        8 => change_lines(script, drop_one, random),
        9 => change_lines(script, duplicate, random),
        10 => change_lines(script, swap, random),
        11 => change_fields(script, swap, random),
        12 | 13 => change_field(script, off_by_one, random),
        14 => change_field(script, |_, random| random.one_of(&EDGES).to_string().into_bytes(), random),
        15 => change_field(script, |_, random| random.one_of(&ODD).as_bytes().to_vec(), random),
        _ if random.percent(10) => change_field(script, |field, random| field.repeat(random.below(3000)), random),
        _ => change_fields(script, drop_one, random),
    }
}

/// Ends the lines with bytes 13 and 10: all of them, or some.
fn with_returns(script: &mut Vec<u8>, random: &mut Random) {
    let part = *random.one_of(&[10, 100]);
    let mut changed = Vec::new();
    for byte in script.iter() {
        if *byte == 10 && random.percent(part) {
            changed.push(13);
        }
        changed.push(*byte);
    }
    *script = changed;
}

/// Lines of a script or fields of a line.
type Parts = Vec<Vec<u8>>;

fn drop_one(parts: &mut Parts, random: &mut Random) {
    parts.remove(random.below(parts.len()));
}

fn duplicate(parts: &mut Parts, random: &mut Random) {
    let part = parts[random.below(parts.len())].clone();
    parts.insert(random.below(parts.len() + 1), part);
}

fn swap(parts: &mut Parts, random: &mut Random) {
    let (one, other) = (random.below(parts.len()), random.below(parts.len()));
    parts.swap(one, other);
}

/// The number of a field one greater or smaller, if it has one.
fn off_by_one(field: &[u8], random: &mut Random) -> Vec<u8> {
    match std::str::from_utf8(field).ok().and_then(|text| text.parse::<u64>().ok()) {
        Some(value) if value > 0 && random.percent(50) => (value - 1).to_string().into_bytes(),
        Some(value) => value.saturating_add(1).to_string().into_bytes(),
        None => field.to_vec(),
    }
}

fn parts(bytes: &[u8], separator: u8) -> Parts {
    bytes.split(|byte| *byte == separator).map(<[u8]>::to_vec).collect()
}

fn change_lines(script: &mut Vec<u8>, change: fn(&mut Parts, &mut Random), random: &mut Random) {
    let mut lines = parts(script, 10);
    change(&mut lines, random);
    *script = lines.join(&10);
}

/// Changes the fields, the word included, of one line.
fn change_fields(script: &mut Vec<u8>, change: fn(&mut Parts, &mut Random), random: &mut Random) {
    let mut lines = parts(script, 10);
    let at = random.below(lines.len());
    let mut fields = parts(&lines[at], b',');
    change(&mut fields, random);
    lines[at] = fields.join(&b',');
    *script = lines.join(&10);
}

/// Changes one field of one line.
fn change_field(script: &mut Vec<u8>, change: fn(&[u8], &mut Random) -> Vec<u8>, random: &mut Random) {
    let mut lines = parts(script, 10);
    let at = random.below(lines.len());
    let mut fields = parts(&lines[at], b',');
    let which = random.below(fields.len());
    fields[which] = change(&fields[which], random);
    lines[at] = fields.join(&b',');
    *script = lines.join(&10);
}
