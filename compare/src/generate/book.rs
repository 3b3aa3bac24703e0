//! Good books.

use crate::rng::Rng;

/// An organ to be written down: rows with reaches, knobs with steps and home,
/// pistons with scopes, and the numbers of wires.
pub struct Plan {
    pub keys: Vec<(i32, i32)>,
    pub ranks: Vec<(i32, i32)>,
    pub knobs: Vec<(i32, i32, i32)>,
    pub pistons: Vec<(i32, i32, i32)>,
    pub wires: Vec<[i32; 8]>,
}

/// A line of a book, before it is text.
#[derive(Clone)]
pub enum BookLine {
    Empty,
    Form(&'static str, Vec<i32>),
    Raw(Vec<u8>),
}

impl BookLine {
    pub fn text(&self) -> Vec<u8> {
        match self {
            BookLine::Empty => Vec::new(),
            BookLine::Form(word, numbers) => {
                let numbers: String = numbers.iter().map(|number| format!(" {number}")).collect();
                format!("({word}{numbers})").into_bytes()
            }
            BookLine::Raw(bytes) => bytes.clone(),
        }
    }
}

/// The whole text. A raw line has its own end, if it has one.
pub fn text(lines: &[BookLine]) -> Vec<u8> {
    let mut text = Vec::new();
    for line in lines {
        text.extend(line.text());
        if !matches!(line, BookLine::Raw(_)) {
            text.push(b'\n');
        }
    }
    text
}

/// Adds empty lines up to a length.
pub fn pad(lines: &mut Vec<BookLine>, length: usize) {
    let missing = length.saturating_sub(text(lines).len());
    lines.extend(std::iter::repeat_n(BookLine::Empty, missing));
}

pub fn plan(rng: &mut Rng) -> Plan {
    let mut plan = Plan {
        keys: rows(rng),
        ranks: rows(rng),
        knobs: knobs(rng),
        pistons: pistons(rng),
        wires: Vec::new(),
    };
    if rng.one_in(40) {
        plan.keys.clear();
    }
    if rng.one_in(40) {
        plan.ranks.clear();
    }
    plan.wires = wires(rng, &plan);
    plan
}

fn rows(rng: &mut Rng) -> Vec<(i32, i32)> {
    let mut numbers: Vec<i32> = (0..16).collect();
    if rng.one_in(2) {
        rng.shuffle(&mut numbers);
    }
    let count = if rng.one_in(10) { rng.below(17) } else { 1 + rng.below(6) };
    numbers.into_iter().take(count).map(|row| (row, reach(rng))).collect()
}

fn reach(rng: &mut Rng) -> i32 {
    match rng.below(12) {
        0 => 0,
        1 => 1,
        2 => 128,
        3 => 127,
        4 => rng.within(0..=128),
        5 => rng.within(1..=20),
        6 => 73,
        7 => 30,
        8 => 92,
        _ => 61,
    }
}

fn knobs(rng: &mut Rng) -> Vec<(i32, i32, i32)> {
    let mut numbers: Vec<i32> = (0..64).collect();
    if rng.one_in(2) {
        rng.shuffle(&mut numbers);
    }
    let count = if rng.one_in(10) { rng.below(65) } else { rng.below(20) };
    numbers.into_iter().take(count).map(|number| knob(rng, number)).collect()
}

fn knob(rng: &mut Rng, number: i32) -> (i32, i32, i32) {
    let steps = if rng.one_in(3) { rng.within(2..=16) } else { rng.within(2..=3) };
    let home = if rng.one_in(2) { 0 } else { rng.within(0..=steps - 1) };
    (number, steps, home)
}

fn pistons(rng: &mut Rng) -> Vec<(i32, i32, i32)> {
    let mut numbers: Vec<i32> = (0..40).collect();
    rng.shuffle(&mut numbers);
    let count = rng.below(9);
    numbers.into_iter().take(count).map(|number| piston(rng, number)).collect()
}

fn piston(rng: &mut Rng, number: i32) -> (i32, i32, i32) {
    let (a, b) = match rng.below(3) {
        0 => (0, 63),
        1 => (rng.within(0..=63), rng.within(0..=63)),
        _ => (rng.within(0..=20), rng.within(0..=20)),
    };
    (number, a.min(b), a.max(b))
}

fn wires(rng: &mut Rng, plan: &Plan) -> Vec<[i32; 8]> {
    let keys: Vec<_> = plan.keys.iter().copied().filter(|row| row.1 > 0).collect();
    let ranks: Vec<_> = plan.ranks.iter().copied().filter(|row| row.1 > 0).collect();
    let (couplers, stops) = match rng.below(10) {
        0 => (128, 128),
        1 | 2 => (rng.below(129), rng.below(129)),
        _ => (rng.below(16), 1 + rng.below(30)),
    };
    let mut wires = Vec::new();
    if !rng.one_in(10) {
        wires.extend(keys.iter().map(|row| [1, row.0, 0, row.1 - 1, row.0, 0, 64, 0]));
    }
    let own = wires.len();
    wires.extend((own..couplers).filter_map(|_| wire(rng, plan, 1, &keys, &keys)));
    wires.extend((0..stops).filter_map(|_| wire(rng, plan, 2, &keys, &ranks)));
    wires
}

fn wire(rng: &mut Rng, plan: &Plan, board: i32, from: &[(i32, i32)], to: &[(i32, i32)]) -> Option<[i32; 8]> {
    let (from_row, reach) = rng.pick(from)?;
    let (to_row, below) = rng.pick(to)?;
    let (lowest, highest) = range(rng, reach);
    let shift = shift(rng, reach, below);
    let (knob, position) = switch(rng, plan);
    Some([board, from_row, lowest, highest, to_row, shift, knob, position])
}

fn range(rng: &mut Rng, reach: i32) -> (i32, i32) {
    if !rng.one_in(3) {
        return (0, reach - 1);
    }
    let (a, b) = (rng.within(0..=reach - 1), rng.within(0..=reach - 1));
    (a.min(b), a.max(b))
}

/// Octaves most often, and shifts that let some key land at an edge.
fn shift(rng: &mut Rng, reach: i32, below: i32) -> i32 {
    let shift = match rng.below(8) {
        0 => rng.within(-96..=96),
        1 => below - reach,
        2 => below - reach + 1,
        3 => rng.within(-3..=3),
        4 => rng.pick(&[-96, 96, 95, -95]).unwrap_or(0),
        5 => -rng.within(0..=reach),
        _ => 12 * rng.within(-2..=3),
    };
    shift.clamp(-96, 96)
}

fn switch(rng: &mut Rng, plan: &Plan) -> (i32, i32) {
    match (rng.below(10), rng.pick(&plan.knobs)) {
        (0, _) | (_, None) => (64, rng.within(0..=15)),
        (1, _) => (rng.within(0..=63), rng.within(0..=1)),
        (2, Some((knob, _, _))) => (knob, rng.within(0..=15)),
        (3, Some((knob, _, home))) => (knob, home),
        (_, Some((knob, steps, _))) => (knob, rng.within(0..=steps - 1)),
    }
}

/// The forms without empty lines, by kinds.
pub fn plain_lines(plan: &Plan) -> Vec<BookLine> {
    let mut lines = Vec::new();
    lines.extend(plan.keys.iter().map(|&(row, reach)| BookLine::Form("keys", vec![row, reach])));
    lines.extend(plan.ranks.iter().map(|&(row, reach)| BookLine::Form("rank", vec![row, reach])));
    lines.extend(plan.knobs.iter().map(|&(k, s, h)| BookLine::Form("knob", vec![k, s, h])));
    lines.extend(plan.pistons.iter().map(|&(p, a, b)| BookLine::Form("piston", vec![p, a, b])));
    lines.extend(plan.wires.iter().map(|wire| BookLine::Form("wire", wire.to_vec())));
    lines
}

/// The forms in any order, with empty lines between.
pub fn lines(rng: &mut Rng, plan: &Plan) -> Vec<BookLine> {
    let mut lines = plain_lines(plan);
    if rng.one_in(2) {
        rng.shuffle(&mut lines);
    }
    for _ in 0..rng.below(6) {
        let place = rng.below(lines.len() + 1);
        lines.insert(place, BookLine::Empty);
    }
    lines
}

/// 5 divisions, 16 ranks, 48 knobs, 40 pistons, 128 couplers and 128 stops.
pub fn large_plan() -> Plan {
    let keys: Vec<(i32, i32)> = (0..5).map(|row| (row, if row == 0 { 32 } else { 61 })).collect();
    let ranks: Vec<(i32, i32)> = (0..16).map(|row| (row, if row % 4 == 0 { 85 } else { 97 })).collect();
    let mut wires = Vec::new();
    for number in 0..128 {
        let (from, reach) = keys[number as usize % 5];
        let (to, _) = keys[(number as usize / 5) % 5];
        let shift = 12 * (number / 25 % 3 - 1);
        let (knob, position) = if from == to && shift == 0 { (64, 0) } else { (number % 48, 1) };
        wires.push([1, from, 0, reach - 1, to, shift, knob, position]);
    }
    for number in 0..128 {
        let (from, reach) = keys[number as usize % 5];
        let shift = 12 * (number / 16 % 4);
        wires.push([2, from, 0, reach - 1, number % 16, shift, (number * 7 + 3) % 48, 1 + number % 2]);
    }
    Plan {
        keys,
        ranks,
        knobs: (0..48).map(|knob| (knob, 3, 0)).collect(),
        pistons: (0..40).map(|piston| (piston, piston % 8 * 6, 47.min(piston % 8 * 6 + 11))).collect(),
        wires,
    }
}
