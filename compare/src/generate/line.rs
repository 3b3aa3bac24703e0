//! Lines: an organist who also makes mistakes, on a bad cable.

use super::book::Plan;
use crate::rng::Rng;

const LOWEST_NOTE: i32 = 36;
const CONTROL: u8 = 0xBF;

/// Writes messages with running status, and real-time bytes between any two
/// bytes if there is a clock.
struct Writer {
    bytes: Vec<u8>,
    running: Option<u8>,
    clock: bool,
}

impl Writer {
    fn new(clock: bool) -> Writer {
        Writer { bytes: Vec::new(), running: None, clock }
    }

    fn byte(&mut self, rng: &mut Rng, byte: u8) {
        while self.clock && rng.one_in(14) {
            self.bytes.push(0xF8 + rng.below(8) as u8);
        }
        self.bytes.push(byte);
    }

    fn message(&mut self, rng: &mut Rng, status: u8, data: &[u8]) {
        if self.running != Some(status) || (self.clock && rng.one_in(5)) {
            self.byte(rng, status);
            self.running = Some(status);
        }
        for &byte in data {
            self.byte(rng, byte);
        }
    }

    /// Bytes after which the running status is not known to the player.
    fn loose(&mut self, rng: &mut Rng, bytes: &[u8]) {
        for &byte in bytes {
            self.byte(rng, byte);
        }
        if !rng.one_in(8) {
            self.running = None;
        }
    }
}

/// A note that is down: channel and note.
type Note = (u8, u8);

struct Organist<'a> {
    plan: &'a Plan,
    /// Divisions that have keys: channel and highest note.
    divisions: Vec<(u8, u8)>,
    held: Vec<Note>,
    writer: Writer,
}

/// A line of so many events, of every kind.
pub fn line(rng: &mut Rng, plan: &Plan, events: usize) -> Vec<u8> {
    let clock = rng.one_in(2);
    let mut organist = Organist::new(plan, clock);
    if rng.one_in(4) {
        organist.noise(rng);
    }
    while organist.writer.bytes.len() < 4 * events {
        organist.event(rng);
    }
    if rng.one_in(2) {
        organist.release_all(rng);
    }
    organist.writer.bytes
}

/// A long line as it is played: chords, stops, pistons and sustain.
pub fn recital(rng: &mut Rng, plan: &Plan, events: usize) -> Vec<u8> {
    let mut organist = Organist::new(plan, false);
    for (piston, _, _) in &plan.pistons {
        for _ in 0..6 {
            organist.turn(rng);
        }
        organist.writer.message(rng, 0x9F, &[*piston as u8, 64]);
    }
    for _ in 0..events {
        organist.recital_event(rng);
    }
    organist.writer.bytes
}

impl Organist<'_> {
    fn new(plan: &Plan, clock: bool) -> Organist<'_> {
        let divisions = plan
            .keys
            .iter()
            .filter(|&&(row, reach)| row < 15 && reach > 0)
            .map(|&(row, reach)| (row as u8, (LOWEST_NOTE + reach - 1).min(127) as u8))
            .collect();
        Organist { plan, divisions, held: Vec::new(), writer: Writer::new(clock) }
    }

    fn event(&mut self, rng: &mut Rng) {
        match rng.below(100) {
            0..=21 => self.press(rng),
            22..=37 => self.lift(rng),
            38..=41 => self.chord(rng),
            42 => self.release_all(rng),
            43..=45 => self.held_chord(rng),
            46..=57 => self.turn(rng),
            58..=60 => self.odd_turn(rng),
            61..=63 => self.capture(rng),
            64..=68 => self.recall(rng),
            69 => self.writer.message(rng, 0x9F, &[127, 1]),
            70..=76 => self.sustain(rng),
            77 => self.clear(rng),
            78 => self.low_note(rng),
            79..=81 => self.high_note(rng),
            82..=84 => self.lost_note(rng),
            85..=90 => self.ignored(rng),
            91..=94 => self.broken(rng),
            95..=97 => self.system(rng),
            98 => self.odd_piston(rng),
            _ => self.noise(rng),
        }
    }

    fn recital_event(&mut self, rng: &mut Rng) {
        match rng.below(100) {
            0..=44 if self.held.len() < 16 => self.press(rng),
            0..=88 => self.lift(rng),
            89..=94 => self.turn(rng),
            95..=96 => self.recall(rng),
            _ => self.sustain(rng),
        }
    }

    fn velocity(rng: &mut Rng) -> u8 {
        rng.within(1..=127) as u8
    }

    /// Presses a key, one that is up if it finds one soon.
    fn press(&mut self, rng: &mut Rng) {
        let Some((channel, highest)) = rng.pick(&self.divisions) else {
            return self.high_note(rng);
        };
        let mut note = rng.within(LOWEST_NOTE..=i32::from(highest)) as u8;
        for _ in 0..4 {
            if !self.held.contains(&(channel, note)) {
                break;
            }
            note = rng.within(LOWEST_NOTE..=i32::from(highest)) as u8;
        }
        let velocity = Self::velocity(rng);
        self.writer.message(rng, 0x90 + channel, &[note, velocity]);
        if !self.held.contains(&(channel, note)) {
            self.held.push((channel, note));
        }
    }

    fn lift(&mut self, rng: &mut Rng) {
        if self.held.is_empty() {
            return self.press(rng);
        }
        let place = rng.below(self.held.len());
        let (channel, note) = self.held.swap_remove(place);
        self.up(rng, channel, note);
    }

    fn up(&mut self, rng: &mut Rng, channel: u8, note: u8) {
        if rng.one_in(2) {
            self.writer.message(rng, 0x90 + channel, &[note, 0]);
        } else {
            let velocity = rng.data();
            self.writer.message(rng, 0x80 + channel, &[note, velocity]);
        }
    }

    fn chord(&mut self, rng: &mut Rng) {
        for _ in 0..3 + rng.below(20) {
            self.press(rng);
        }
    }

    fn release_all(&mut self, rng: &mut Rng) {
        for (channel, note) in std::mem::take(&mut self.held) {
            self.up(rng, channel, note);
        }
    }

    /// A long chord under moving knobs and pistons.
    fn held_chord(&mut self, rng: &mut Rng) {
        self.chord(rng);
        for _ in 0..5 + rng.below(25) {
            match rng.below(8) {
                0 => self.capture(rng),
                1 | 2 => self.recall(rng),
                3 => self.press(rng),
                4 if rng.one_in(4) => self.writer.message(rng, 0x9F, &[127, 1]),
                _ => self.turn(rng),
            }
        }
        self.release_all(rng);
    }

    fn turn(&mut self, rng: &mut Rng) {
        let Some((knob, steps, _)) = rng.pick(&self.plan.knobs) else {
            return self.odd_turn(rng);
        };
        let position = rng.within(0..=steps - 1) as u8;
        self.writer.message(rng, CONTROL, &[knob as u8, position]);
    }

    /// Positions at and beyond the steps, knobs that may not be there.
    fn odd_turn(&mut self, rng: &mut Rng) {
        let data = match (rng.below(3), rng.pick(&self.plan.knobs)) {
            (0, Some((knob, steps, _))) => [knob as u8, (steps + rng.within(0..=1)) as u8],
            (1, Some((knob, _, _))) => [knob as u8, rng.data()],
            (2, _) => [rng.within(60..=127) as u8, rng.below(4) as u8],
            _ => [rng.below(64) as u8, rng.below(17) as u8],
        };
        self.writer.message(rng, CONTROL, &data);
    }

    fn piston(&mut self, rng: &mut Rng) -> u8 {
        match rng.pick(&self.plan.pistons) {
            Some((piston, _, _)) if !rng.one_in(12) => piston as u8,
            _ => rng.below(44) as u8,
        }
    }

    fn capture(&mut self, rng: &mut Rng) {
        let (piston, velocity) = (self.piston(rng), Self::velocity(rng));
        self.writer.message(rng, 0x9F, &[piston, velocity]);
    }

    fn recall(&mut self, rng: &mut Rng) {
        let piston = self.piston(rng);
        self.writer.message(rng, 0xCF, &[piston]);
    }

    /// Pistons out of range, and notes of channel 15 that ask for nothing.
    fn odd_piston(&mut self, rng: &mut Rng) {
        let number = rng.pick(&[39, 40, 63, 64, 126, 127]).unwrap_or(40);
        match rng.below(4) {
            0 => self.writer.message(rng, 0xCF, &[number]),
            1 => self.writer.message(rng, 0x9F, &[number, 64]),
            2 => self.writer.message(rng, 0x9F, &[number, 0]),
            _ => self.writer.message(rng, 0x8F, &[number, 64]),
        }
    }

    fn channel(&mut self, rng: &mut Rng) -> u8 {
        match rng.pick(&self.divisions) {
            Some((channel, _)) if !rng.one_in(8) => channel,
            _ => rng.below(16) as u8,
        }
    }

    fn sustain(&mut self, rng: &mut Rng) {
        let channel = self.channel(rng);
        let value = rng.pick(&[0, 127, 63, 64, 1]).unwrap_or(0);
        self.writer.message(rng, 0xB0 + channel, &[64, value]);
    }

    fn clear(&mut self, rng: &mut Rng) {
        let (channel, value) = (self.channel(rng), rng.data());
        self.writer.message(rng, 0xB0 + channel, &[123, value]);
        if rng.one_in(2) {
            self.held.retain(|note| note.0 != channel);
        }
    }

    fn low_note(&mut self, rng: &mut Rng) {
        let note = rng.pick(&[0, 1, 34, 35]).unwrap_or(35);
        let status = rng.pick(&[0x80, 0x90]).unwrap_or(0x90) + self.channel(rng);
        let velocity = rng.pick(&[0, 64]).unwrap_or(0);
        self.writer.message(rng, status, &[note, velocity]);
    }

    /// A note beyond the keys of a division, or of any division at all.
    fn high_note(&mut self, rng: &mut Rng) {
        let status = rng.pick(&[0x80, 0x90]).unwrap_or(0x90);
        let (channel, note) = match rng.pick(&self.divisions) {
            Some((channel, highest)) if !rng.one_in(3) => (channel, highest.saturating_add(1).min(127)),
            _ => (rng.below(15) as u8, rng.data()),
        };
        let velocity = Self::velocity(rng);
        self.writer.message(rng, status + channel, &[note, velocity]);
    }

    /// A press of a key that is down, or a lift of one that is up.
    fn lost_note(&mut self, rng: &mut Rng) {
        match (rng.one_in(2), rng.pick(&self.held), rng.pick(&self.divisions)) {
            (true, Some((channel, note)), _) => self.writer.message(rng, 0x90 + channel, &[note, 64]),
            (_, _, Some((channel, highest))) => {
                let note = rng.within(LOWEST_NOTE..=i32::from(highest)) as u8;
                self.held.retain(|&held| held != (channel, note));
                self.up(rng, channel, note);
            }
            _ => self.low_note(rng),
        }
    }

    /// Messages that ask for nothing.
    fn ignored(&mut self, rng: &mut Rng) {
        let channel = rng.below(16) as u8;
        let (a, b) = (rng.data(), rng.data());
        match rng.below(6) {
            0 => self.writer.message(rng, 0xA0 + channel, &[a, b]),
            1 => self.writer.message(rng, 0xD0 + channel, &[a]),
            2 => self.writer.message(rng, 0xE0 + channel, &[a, b]),
            3 => self.writer.message(rng, 0xC0 + channel % 15, &[a]),
            4 => self.writer.message(rng, 0xB0 + channel % 15, &[a % 64, b]),
            _ => self.writer.message(rng, CONTROL, &[64 + a % 64, b]),
        }
    }

    /// A message that is begun and dropped.
    fn broken(&mut self, rng: &mut Rng) {
        let status = 0x80 + rng.below(0x70) as u8;
        let data = rng.data();
        if rng.one_in(2) || matches!(status >> 4, 0xC | 0xD) {
            self.writer.loose(rng, &[status]);
        } else {
            self.writer.loose(rng, &[status, data]);
        }
    }

    fn system(&mut self, rng: &mut Rng) {
        let mut bytes = vec![0xF0 + rng.below(8) as u8];
        bytes.extend((0..rng.below(5)).map(|_| rng.data()));
        if rng.one_in(2) {
            bytes.push(0xF7);
        }
        self.writer.loose(rng, &bytes);
    }

    fn noise(&mut self, rng: &mut Rng) {
        let bytes: Vec<u8> = (0..rng.below(12)).map(|_| rng.byte()).collect();
        self.writer.loose(rng, &bytes);
    }
}
