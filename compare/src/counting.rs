//! A relay with counts: each board keeps the number of ways to each place
//! below, so a key or a knob changes only what it touches.

use crate::action::{Action, Answer, PlayFault};
use crate::book::{Knob, Piston};
use crate::listing::Relay;
use crate::organ::{Organ, Reaches, Wire};
use crate::{ALWAYS, KNOBS, PISTONS, PLACES, ROWS};

const ALL_PLACES: usize = ROWS * PLACES;
const WORDS: usize = ALL_PLACES / 64;

/// A live wire, cut to the keys that land on a place: key k leads to the
/// place `offset + k`, counted over all rows.
#[derive(Clone, Copy)]
struct Lead {
    lowest: u8,
    highest: u8,
    wire: u8,
    offset: i16,
}

impl Lead {
    /// None for a wire of which no key lands.
    fn of(wire: &Wire, index: usize, below: &Reaches) -> Option<Lead> {
        let shift = i16::from(wire.shift);
        let reach = i16::from(below[usize::from(wire.to)]);
        let lowest = i16::from(wire.lowest).max(-shift);
        let highest = i16::from(wire.highest).min(reach - 1 - shift);
        (lowest <= highest).then(|| Lead {
            lowest: lowest as u8,
            highest: highest as u8,
            wire: index as u8,
            offset: i16::from(wire.to) * PLACES as i16 + shift,
        })
    }

    #[inline]
    fn landing(&self, key: u8) -> usize {
        (self.offset + i16::from(key)) as usize % ALL_PLACES
    }

    fn keys(&self) -> u128 {
        (u128::MAX >> (127 - (self.highest - self.lowest))) << self.lowest
    }
}

/// A wire as its knob sees it.
#[derive(Clone, Copy)]
struct Switched {
    position: u8,
    from: u8,
    lead: Lead,
}

struct Board {
    keys: [u128; ROWS],
    live: [Vec<Lead>; ROWS],
    switched: [Vec<Switched>; KNOBS],
    ways: [u8; ALL_PLACES],
}

impl Board {
    fn new(wires: &[Wire], below: &Reaches, panel: &[u8; KNOBS]) -> Board {
        let mut board = Board {
            keys: [0; ROWS],
            live: [const { Vec::new() }; ROWS],
            switched: [const { Vec::new() }; KNOBS],
            ways: [0; ALL_PLACES],
        };
        for (index, wire) in wires.iter().enumerate() {
            if let Some(lead) = Lead::of(wire, index, below) {
                board.add(wire, lead, panel);
            }
        }
        board
    }

    fn add(&mut self, wire: &Wire, lead: Lead, panel: &[u8; KNOBS]) {
        let Wire { from, knob, position, .. } = *wire;
        let mut live = true;
        if knob != ALWAYS {
            self.switched[usize::from(knob)].push(Switched { position, from, lead });
            live = panel[usize::from(knob)] == position;
        }
        if live {
            self.live[usize::from(from)].push(lead);
        }
    }

    /// Puts a key on or off and tells of each place below that changes.
    #[inline]
    fn set(&mut self, row: usize, key: u8, on: bool, mut changed: impl FnMut(usize, bool)) {
        let bit = 1 << key;
        if (self.keys[row] & bit != 0) == on {
            return;
        }
        self.keys[row] ^= bit;
        for lead in &self.live[row] {
            if lead.lowest <= key && key <= lead.highest {
                count(&mut self.ways, lead.landing(key), on, &mut changed);
            }
        }
    }

    /// Turns a knob. New ways come before old ones go, so that a place with
    /// both does not change in between.
    fn turn(&mut self, knob: usize, old: u8, new: u8, mut changed: impl FnMut(usize, bool)) {
        for (position, on) in [(new, true), (old, false)] {
            for wire in self.switched[knob].iter().filter(|wire| wire.position == position) {
                let row = usize::from(wire.from);
                switch(&mut self.live[row], wire.lead, on);
                for key in bits(self.keys[row] & wire.lead.keys()) {
                    count(&mut self.ways, wire.lead.landing(key), on, &mut changed);
                }
            }
        }
    }
}

fn switch(live: &mut Vec<Lead>, lead: Lead, on: bool) {
    if on {
        live.push(lead);
    } else if let Some(index) = live.iter().position(|other| other.wire == lead.wire) {
        live.swap_remove(index);
    }
}

/// Counts one way more or less to a place.
#[inline]
fn count(ways: &mut [u8; ALL_PLACES], place: usize, on: bool, changed: &mut impl FnMut(usize, bool)) {
    let ways = &mut ways[place];
    if on {
        *ways += 1;
        if *ways == 1 {
            changed(place, true);
        }
    } else {
        *ways -= 1;
        if *ways == 0 {
            changed(place, false);
        }
    }
}

/// The bits of a set that are 1, rising.
fn bits(mut set: u128) -> impl Iterator<Item = u8> {
    std::iter::from_fn(move || {
        if set == 0 {
            return None;
        }
        let bit = set.trailing_zeros() as u8;
        set &= set - 1;
        Some(bit)
    })
}

/// The magnets, a bit for each pipe: as they shall be and as they are.
struct Magnets {
    register: [u64; WORDS],
    speaking: [u64; WORDS],
}

impl Magnets {
    fn new() -> Magnets {
        Magnets { register: [0; WORDS], speaking: [0; WORDS] }
    }

    #[inline]
    fn put(&mut self, pipe: usize, on: bool) {
        let word = &mut self.register[pipe / 64];
        let bit = 1 << (pipe % 64);
        if on {
            *word |= bit;
        } else {
            *word &= !bit;
        }
    }

    #[inline]
    fn strobe(&mut self) -> u32 {
        let mut changed = 0u64;
        for (speaking, register) in self.speaking.iter_mut().zip(&self.register) {
            changed += u64::from((*speaking ^ register).count_ones());
            *speaking = *register;
        }
        changed as u32
    }
}

/// The two boards on the magnets, and the panel.
struct Stack {
    couplers: Board,
    stops: Board,
    magnets: Magnets,
    panel: [u8; KNOBS],
}

impl Stack {
    fn new(organ: &Organ) -> Stack {
        let panel = organ.knobs.map(|knob| knob.map_or(0, |knob| knob.home));
        Stack {
            couplers: Board::new(&organ.couplers, &organ.keys, &panel),
            stops: Board::new(&organ.stops, &organ.ranks, &panel),
            magnets: Magnets::new(),
            panel,
        }
    }

    #[inline]
    fn set(&mut self, division: usize, key: u8, on: bool) {
        let Stack { couplers, stops, magnets, .. } = self;
        couplers.set(division, key, on, |place, on| {
            stops.set(place / PLACES, (place % PLACES) as u8, on, |pipe, on| magnets.put(pipe, on));
        });
    }

    fn set_all(&mut self, division: usize, keys: u128, on: bool) {
        for key in bits(keys) {
            self.set(division, key, on);
        }
    }

    fn turn(&mut self, knob: usize, new: u8) {
        let old = std::mem::replace(&mut self.panel[knob], new);
        if old == new {
            return;
        }
        let Stack { couplers, stops, magnets, .. } = self;
        couplers.turn(knob, old, new, |place, on| {
            stops.set(place / PLACES, (place % PLACES) as u8, on, |pipe, on| magnets.put(pipe, on));
        });
        stops.turn(knob, old, new, |pipe, on| magnets.put(pipe, on));
    }
}

#[derive(Clone, Copy, Default)]
struct Division {
    reach: u8,
    sustain: bool,
    down: u128,
    sustained: u128,
}

pub struct Counting {
    stack: Stack,
    divisions: [Division; ROWS],
    knobs: [Option<Knob>; KNOBS],
    pistons: [Option<Piston>; PISTONS],
    captured: [Option<[u8; KNOBS]>; PISTONS],
}

impl Counting {
    pub fn new(organ: Organ) -> Counting {
        Counting {
            stack: Stack::new(&organ),
            divisions: organ.keys.map(|reach| Division { reach, ..Division::default() }),
            knobs: organ.knobs,
            pistons: organ.pistons,
            captured: [None; PISTONS],
        }
    }

    #[inline]
    fn press(&mut self, row: u8, key: u8) -> Result<(), PlayFault> {
        let division = self.division(row)?;
        let bit = division.key(key)?;
        if division.down & bit != 0 {
            return Err(PlayFault::KeyDown);
        }
        division.down |= bit;
        if division.sustain {
            division.sustained |= bit;
        }
        self.stack.set(usize::from(row), key, true);
        Ok(())
    }

    #[inline]
    fn lift(&mut self, row: u8, key: u8) -> Result<(), PlayFault> {
        let division = self.division(row)?;
        let bit = division.key(key)?;
        if division.down & bit == 0 {
            return Err(PlayFault::KeyUp);
        }
        division.down &= !bit;
        if division.sustained & bit == 0 {
            self.stack.set(usize::from(row), key, false);
        }
        Ok(())
    }

    fn sustain(&mut self, row: u8, on: bool) -> Result<(), PlayFault> {
        let division = self.division(row)?;
        if on {
            if !division.sustain {
                division.sustained = division.down;
            }
            division.sustain = true;
        } else {
            let released = division.sustained & !division.down;
            division.sustain = false;
            division.sustained = 0;
            self.stack.set_all(usize::from(row), released, false);
        }
        Ok(())
    }

    fn clear(&mut self, row: u8) -> Result<(), PlayFault> {
        let division = self.division(row)?;
        let sounding = division.down | division.sustained;
        *division = Division { reach: division.reach, ..Division::default() };
        self.stack.set_all(usize::from(row), sounding, false);
        Ok(())
    }

    fn turn(&mut self, knob: u8, position: u8) -> Result<(), PlayFault> {
        let knob = usize::from(knob);
        let defined = self.knobs.get(knob).copied().flatten().ok_or(PlayFault::Knob)?;
        if position >= defined.steps {
            return Err(PlayFault::Position);
        }
        self.stack.turn(knob, position);
        Ok(())
    }

    fn capture(&mut self, piston: u8) -> Result<(), PlayFault> {
        self.piston(piston)?;
        self.captured[usize::from(piston)] = Some(self.stack.panel);
        Ok(())
    }

    fn recall(&mut self, piston: u8) -> Result<(), PlayFault> {
        let scope = self.piston(piston)?.scope();
        let stored = self.captured[usize::from(piston)].ok_or(PlayFault::NeverCaptured)?;
        for knob in scope {
            if self.knobs[knob].is_some() {
                self.stack.turn(knob, stored[knob]);
            }
        }
        Ok(())
    }

    fn cancel(&mut self) {
        for (number, knob) in self.knobs.iter().enumerate() {
            if let Some(knob) = knob {
                self.stack.turn(number, knob.home);
            }
        }
    }

    #[inline]
    fn division(&mut self, row: u8) -> Result<&mut Division, PlayFault> {
        self.divisions.get_mut(usize::from(row)).ok_or(PlayFault::Division)
    }

    fn piston(&self, piston: u8) -> Result<Piston, PlayFault> {
        self.pistons.get(usize::from(piston)).copied().flatten().ok_or(PlayFault::Piston)
    }
}

impl Division {
    /// The bit of a key that the division has.
    #[inline]
    fn key(&self, key: u8) -> Result<u128, PlayFault> {
        if key >= self.reach {
            return Err(PlayFault::Key);
        }
        Ok(1 << key)
    }
}

impl Relay for Counting {
    #[inline]
    fn call(&mut self, action: Action) -> Answer {
        match action {
            Action::Press { division, key } => self.press(division, key)?,
            Action::Lift { division, key } => self.lift(division, key)?,
            Action::Sustain { division, on } => self.sustain(division, on)?,
            Action::Clear { division } => self.clear(division)?,
            Action::Turn { knob, position } => self.turn(knob, position)?,
            Action::Capture { piston } => return self.capture(piston).map(|()| 0),
            Action::Recall { piston } => self.recall(piston)?,
            Action::Cancel => self.cancel(),
        }
        Ok(self.stack.magnets.strobe())
    }
}
