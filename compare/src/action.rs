//! From messages to calls of the console, and what a call answers.

use crate::line::{Kind, Message};

const LOWEST_NOTE: u8 = 36;
const CONTROL_CHANNEL: u8 = 15;
const CANCEL_NOTE: u8 = 127;
const SUSTAIN: u8 = 64;
const CLEAR: u8 = 123;

/// A call of the console.
#[derive(Clone, Copy, Debug, PartialEq, Eq)]
pub enum Action {
    Press { division: u8, key: u8 },
    Lift { division: u8, key: u8 },
    Sustain { division: u8, on: bool },
    Clear { division: u8 },
    Turn { knob: u8, position: u8 },
    Capture { piston: u8 },
    Recall { piston: u8 },
    Cancel,
}

#[derive(Clone, Copy, Debug, PartialEq, Eq)]
pub enum PlayFault {
    Division,
    Key,
    KeyDown,
    KeyUp,
    Knob,
    Position,
    Piston,
    NeverCaptured,
}

impl PlayFault {
    pub fn number(self) -> u32 {
        match self {
            PlayFault::Division => 1,
            PlayFault::Key => 2,
            PlayFault::KeyDown => 3,
            PlayFault::KeyUp => 4,
            PlayFault::Knob => 5,
            PlayFault::Position => 6,
            PlayFault::Piston => 7,
            PlayFault::NeverCaptured => 8,
        }
    }
}

/// How many pipes changed at the strobe, or why the call was refused.
pub type Answer = Result<u32, PlayFault>;

/// What a message asks for, if it asks for anything.
#[derive(Clone, Copy, Debug, PartialEq, Eq)]
pub enum Request {
    Call(Action),
    /// A note below the lowest key.
    LowNote,
}

#[inline]
pub fn request(message: Message) -> Option<Request> {
    if message.channel == CONTROL_CHANNEL {
        control(message).map(Request::Call)
    } else {
        division(message)
    }
}

fn control(message: Message) -> Option<Action> {
    match message.kind {
        Kind::NoteOn if message.second == 0 => None,
        Kind::NoteOn if message.first == CANCEL_NOTE => Some(Action::Cancel),
        Kind::NoteOn => Some(Action::Capture { piston: message.first }),
        Kind::Controller if message.first < 64 => {
            Some(Action::Turn { knob: message.first, position: message.second })
        }
        Kind::Program => Some(Action::Recall { piston: message.first }),
        _ => None,
    }
}

fn division(message: Message) -> Option<Request> {
    let division = message.channel;
    let action = match (message.kind, message.first) {
        (Kind::NoteOn | Kind::NoteOff, note) if note < LOWEST_NOTE => return Some(Request::LowNote),
        (Kind::NoteOn, note) if message.second > 0 => Action::Press { division, key: note - LOWEST_NOTE },
        (Kind::NoteOn | Kind::NoteOff, note) => Action::Lift { division, key: note - LOWEST_NOTE },
        (Kind::Controller, SUSTAIN) => Action::Sustain { division, on: message.second >= 64 },
        (Kind::Controller, CLEAR) => Action::Clear { division },
        _ => return None,
    };
    Some(Request::Call(action))
}

#[cfg(test)]
mod tests {
    use super::*;

    fn asked(kind: Kind, channel: u8, first: u8, second: u8) -> Option<Request> {
        request(Message { kind, channel, first, second })
    }

    #[test]
    fn on_divisions() {
        let call = |action| Some(Request::Call(action));
        assert_eq!(asked(Kind::NoteOn, 14, 127, 1), call(Action::Press { division: 14, key: 91 }));
        assert_eq!(asked(Kind::NoteOn, 0, 36, 0), call(Action::Lift { division: 0, key: 0 }));
        assert_eq!(asked(Kind::NoteOff, 0, 36, 9), call(Action::Lift { division: 0, key: 0 }));
        assert_eq!(asked(Kind::NoteOff, 0, 35, 9), Some(Request::LowNote));
        assert_eq!(asked(Kind::NoteOn, 0, 0, 9), Some(Request::LowNote));
        assert_eq!(asked(Kind::Controller, 3, 64, 63), call(Action::Sustain { division: 3, on: false }));
        assert_eq!(asked(Kind::Controller, 3, 64, 64), call(Action::Sustain { division: 3, on: true }));
        assert_eq!(asked(Kind::Controller, 3, 123, 0), call(Action::Clear { division: 3 }));
        assert_eq!(asked(Kind::Controller, 3, 5, 1), None);
        assert_eq!(asked(Kind::Program, 3, 5, 0), None);
        assert_eq!(asked(Kind::KeyPressure, 3, 5, 0), None);
    }

    #[test]
    fn on_the_control_channel() {
        let call = |action| Some(Request::Call(action));
        assert_eq!(asked(Kind::NoteOn, 15, 3, 1), call(Action::Capture { piston: 3 }));
        assert_eq!(asked(Kind::NoteOn, 15, 126, 1), call(Action::Capture { piston: 126 }));
        assert_eq!(asked(Kind::NoteOn, 15, 127, 1), call(Action::Cancel));
        assert_eq!(asked(Kind::NoteOn, 15, 127, 0), None);
        assert_eq!(asked(Kind::NoteOff, 15, 3, 1), None);
        assert_eq!(asked(Kind::Controller, 15, 63, 127), call(Action::Turn { knob: 63, position: 127 }));
        assert_eq!(asked(Kind::Controller, 15, 64, 127), None);
        assert_eq!(asked(Kind::Controller, 15, 123, 0), None);
        assert_eq!(asked(Kind::Program, 15, 100, 0), call(Action::Recall { piston: 100 }));
        assert_eq!(asked(Kind::Bend, 15, 0, 0), None);
    }
}
