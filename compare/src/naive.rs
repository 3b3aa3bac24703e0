//! A relay without counts: at each strobe it works the speaking pipes out anew
//! from the sounding keys, the knobs and the wires.

use crate::action::{Action, Answer, PlayFault};
use crate::book::{Knob, Piston};
use crate::listing::Relay;
use crate::organ::{Organ, Reaches, Wire};
use crate::{ALWAYS, KNOBS, PISTONS, PLACES, ROWS};

type Places = [[bool; PLACES]; ROWS];
type Panel = [u8; KNOBS];

const NO_PLACES: Places = [[false; PLACES]; ROWS];

pub struct Naive {
    organ: Organ,
    down: Places,
    sustained: Places,
    sustain: [bool; ROWS],
    panel: Panel,
    captured: [Option<Panel>; PISTONS],
    speaking: Places,
}

impl Naive {
    pub fn new(organ: Organ) -> Naive {
        let panel = organ.knobs.map(|knob| knob.map_or(0, |knob| knob.home));
        Naive {
            organ,
            down: NO_PLACES,
            sustained: NO_PLACES,
            sustain: [false; ROWS],
            panel,
            captured: [None; PISTONS],
            speaking: NO_PLACES,
        }
    }

    fn press(&mut self, division: u8, key: u8) -> Result<(), PlayFault> {
        let (division, key) = self.key(division, key)?;
        if self.down[division][key] {
            return Err(PlayFault::KeyDown);
        }
        self.down[division][key] = true;
        if self.sustain[division] {
            self.sustained[division][key] = true;
        }
        Ok(())
    }

    fn lift(&mut self, division: u8, key: u8) -> Result<(), PlayFault> {
        let (division, key) = self.key(division, key)?;
        if !self.down[division][key] {
            return Err(PlayFault::KeyUp);
        }
        self.down[division][key] = false;
        Ok(())
    }

    fn set_sustain(&mut self, division: u8, on: bool) -> Result<(), PlayFault> {
        let division = checked_division(division)?;
        match (self.sustain[division], on) {
            (false, true) => self.sustained[division] = self.down[division],
            (_, false) => self.sustained[division] = [false; PLACES],
            (true, true) => {}
        }
        self.sustain[division] = on;
        Ok(())
    }

    fn clear(&mut self, division: u8) -> Result<(), PlayFault> {
        let division = checked_division(division)?;
        self.sustain[division] = false;
        self.down[division] = [false; PLACES];
        self.sustained[division] = [false; PLACES];
        Ok(())
    }

    fn turn(&mut self, knob: u8, position: u8) -> Result<(), PlayFault> {
        let defined = self.organ.knobs.get(usize::from(knob)).copied().flatten();
        let Knob { steps, .. } = defined.ok_or(PlayFault::Knob)?;
        if position >= steps {
            return Err(PlayFault::Position);
        }
        self.panel[usize::from(knob)] = position;
        Ok(())
    }

    /// Keeps the whole panel; a recall takes the piston's knobs out of it.
    fn capture(&mut self, piston: u8) -> Result<(), PlayFault> {
        self.piston(piston)?;
        self.captured[usize::from(piston)] = Some(self.panel);
        Ok(())
    }

    fn recall(&mut self, piston: u8) -> Result<(), PlayFault> {
        let scope = self.piston(piston)?.scope();
        let stored = self.captured[usize::from(piston)].ok_or(PlayFault::NeverCaptured)?;
        for knob in scope {
            if self.organ.knobs[knob].is_some() {
                self.panel[knob] = stored[knob];
            }
        }
        Ok(())
    }

    fn cancel(&mut self) {
        for (position, knob) in self.panel.iter_mut().zip(&self.organ.knobs) {
            if let Some(knob) = knob {
                *position = knob.home;
            }
        }
    }

    fn key(&self, division: u8, key: u8) -> Result<(usize, usize), PlayFault> {
        let division = checked_division(division)?;
        if key >= self.organ.keys[division] {
            return Err(PlayFault::Key);
        }
        Ok((division, usize::from(key)))
    }

    fn piston(&self, piston: u8) -> Result<Piston, PlayFault> {
        self.organ.pistons.get(usize::from(piston)).copied().flatten().ok_or(PlayFault::Piston)
    }

    fn strobe(&mut self) -> u32 {
        let sounding = union(&self.down, &self.sustained);
        let coupled = image(&self.organ.couplers, &self.panel, &sounding, &self.organ.keys);
        let pipes = image(&self.organ.stops, &self.panel, &coupled, &self.organ.ranks);
        let changed = differences(&self.speaking, &pipes);
        self.speaking = pipes;
        changed
    }
}

impl Relay for Naive {
    fn call(&mut self, action: Action) -> Answer {
        match action {
            Action::Press { division, key } => self.press(division, key)?,
            Action::Lift { division, key } => self.lift(division, key)?,
            Action::Sustain { division, on } => self.set_sustain(division, on)?,
            Action::Clear { division } => self.clear(division)?,
            Action::Turn { knob, position } => self.turn(knob, position)?,
            Action::Capture { piston } => return self.capture(piston).map(|()| 0),
            Action::Recall { piston } => self.recall(piston)?,
            Action::Cancel => self.cancel(),
        }
        Ok(self.strobe())
    }
}

fn checked_division(division: u8) -> Result<usize, PlayFault> {
    let division = usize::from(division);
    if division >= ROWS {
        return Err(PlayFault::Division);
    }
    Ok(division)
}

fn live(wire: &Wire, panel: &Panel) -> bool {
    wire.knob == ALWAYS || panel[usize::from(wire.knob)] == wire.position
}

/// The places below to which live wires lead from set keys.
fn image(wires: &[Wire], panel: &Panel, keys: &Places, below: &Reaches) -> Places {
    let mut places = NO_PLACES;
    for wire in wires.iter().filter(|wire| live(wire, panel)) {
        let to = usize::from(wire.to);
        for key in wire.lowest..=wire.highest {
            let landing = i16::from(key) + i16::from(wire.shift);
            let reached = 0 <= landing && landing < i16::from(below[to]);
            if reached && keys[usize::from(wire.from)][usize::from(key)] {
                places[to][landing as usize] = true;
            }
        }
    }
    places
}

fn union(a: &Places, b: &Places) -> Places {
    let mut both = *a;
    for (place, &other) in both.as_flattened_mut().iter_mut().zip(b.as_flattened()) {
        *place |= other;
    }
    both
}

fn differences(a: &Places, b: &Places) -> u32 {
    a.as_flattened().iter().zip(b.as_flattened()).filter(|(a, b)| a != b).count() as u32
}
