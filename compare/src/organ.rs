//! Assembling: the wires of a book are fitted on their boards.

use crate::book::{BoardName, Book, BookWire, Knob, Piston};
use crate::{ALWAYS, KNOBS, PISTONS, ROWS};

const MAX_BOARD_WIRES: usize = 128;
const MAX_SHIFT: i16 = 96;

/// Reaches of the 16 rows.
pub type Reaches = [u8; ROWS];

/// A wire that its board has taken.
#[derive(Clone, Copy, Debug, PartialEq, Eq)]
pub struct Wire {
    pub from: u8,
    pub lowest: u8,
    pub highest: u8,
    pub to: u8,
    pub shift: i8,
    pub knob: u8,
    pub position: u8,
}

/// What a relay is made from: a book whose wires are all taken.
#[derive(Clone, Debug)]
pub struct Organ {
    pub keys: Reaches,
    pub ranks: Reaches,
    pub knobs: [Option<Knob>; KNOBS],
    pub pistons: [Option<Piston>; PISTONS],
    pub couplers: Vec<Wire>,
    pub stops: Vec<Wire>,
}

#[derive(Clone, Copy, Debug, PartialEq, Eq)]
pub enum WireFault {
    Full,
    Keys,
    ToRow,
    NoPlaces,
    Shift,
    Knob,
    Position,
}

impl WireFault {
    pub fn number(self) -> u32 {
        match self {
            WireFault::ToRow => 11,
            WireFault::Knob => 13,
            WireFault::Position => 14,
            WireFault::Full => 16,
            WireFault::Keys => 17,
            WireFault::NoPlaces => 18,
            WireFault::Shift => 19,
        }
    }
}

/// The first wire that its board refuses.
#[derive(Clone, Copy, Debug, PartialEq, Eq)]
pub struct Refusal {
    pub line: u32,
    pub fault: WireFault,
}

impl Refusal {
    pub const NUMBER: u32 = 37;
}

pub fn assemble(book: &Book) -> Result<Organ, Refusal> {
    let mut organ = Organ {
        keys: book.keys.map(Option::unwrap_or_default),
        ranks: book.ranks.map(Option::unwrap_or_default),
        knobs: book.knobs,
        pistons: book.pistons,
        couplers: Vec::new(),
        stops: Vec::new(),
    };
    for wire in &book.wires {
        let (fitted, below) = match wire.board {
            BoardName::Coupler => (&mut organ.couplers, &organ.keys),
            BoardName::Stop => (&mut organ.stops, &organ.ranks),
        };
        fit(fitted, wire, &organ.keys, below).map_err(|fault| Refusal { line: wire.line, fault })?;
    }
    Ok(organ)
}

fn fit(fitted: &mut Vec<Wire>, wire: &BookWire, keys: &Reaches, below: &Reaches) -> Result<(), WireFault> {
    if fitted.len() >= MAX_BOARD_WIRES {
        return Err(WireFault::Full);
    }
    let from_reach = reach(keys, wire.from).ok_or(WireFault::Keys)?;
    if wire.lowest > wire.highest || wire.highest >= from_reach {
        return Err(WireFault::Keys);
    }
    if reach(below, wire.to).ok_or(WireFault::ToRow)? == 0 {
        return Err(WireFault::NoPlaces);
    }
    if wire.shift.abs() > MAX_SHIFT {
        return Err(WireFault::Shift);
    }
    if wire.knob > i16::from(ALWAYS) {
        return Err(WireFault::Knob);
    }
    if wire.position > 15 {
        return Err(WireFault::Position);
    }
    // Every number is in its range now.
    fitted.push(Wire {
        from: wire.from as u8,
        lowest: wire.lowest as u8,
        highest: wire.highest as u8,
        to: wire.to as u8,
        shift: wire.shift as i8,
        knob: wire.knob as u8,
        position: wire.position as u8,
    });
    Ok(())
}

fn reach(reaches: &Reaches, row: i16) -> Option<i16> {
    let row = usize::try_from(row).ok()?;
    reaches.get(row).map(|&reach| i16::from(reach))
}

#[cfg(test)]
mod tests {
    use super::*;
    use crate::book;

    fn refusal(wires: &str) -> Option<(u32, u32)> {
        let text = format!("(keys 0 61)\n(rank 1 73)\n{wires}");
        let book = book::read(text.as_bytes()).expect("a good book");
        assemble(&book).err().map(|refusal| (refusal.fault.number(), refusal.line))
    }

    #[test]
    fn each_fault_in_its_order() {
        assert_eq!(refusal("(wire 1 0 0 60 0 -96 64 15)\n(wire 2 0 0 60 1 96 0 0)\n"), None);
        assert_eq!(refusal("(wire 1 16 0 0 99 99 99 99)\n"), Some((17, 3)));
        assert_eq!(refusal("\n(wire 1 0 2 1 99 99 99 99)\n"), Some((17, 4)));
        assert_eq!(refusal("(wire 1 0 0 61 99 99 99 99)\n"), Some((17, 3)));
        assert_eq!(refusal("(wire 2 1 0 0 1 0 0 0)\n"), Some((17, 3)));
        assert_eq!(refusal("(wire 1 0 0 60 16 99 99 99)\n"), Some((11, 3)));
        assert_eq!(refusal("(wire 1 0 0 60 1 99 99 99)\n"), Some((18, 3)));
        assert_eq!(refusal("(wire 2 0 0 60 0 99 99 99)\n"), Some((18, 3)));
        assert_eq!(refusal("(wire 1 0 0 60 0 97 99 99)\n"), Some((19, 3)));
        assert_eq!(refusal("(wire 1 0 0 60 0 -97 99 99)\n"), Some((19, 3)));
        assert_eq!(refusal("(wire 1 0 0 60 0 0 65 99)\n"), Some((13, 3)));
        assert_eq!(refusal("(wire 1 0 0 60 0 0 64 16)\n"), Some((14, 3)));
    }

    #[test]
    fn a_full_board() {
        let couplers = "(wire 1 0 0 60 0 0 64 0)\n".repeat(128);
        let stop = "(wire 2 0 0 60 1 0 64 0)\n";
        assert_eq!(refusal(&format!("{couplers}{stop}")), None);
        assert_eq!(refusal(&format!("{couplers}{stop}(wire 1 99 0 0 0 0 0 0)\n")), Some((16, 132)));
    }
}
