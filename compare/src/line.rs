//! The line: MIDI bytes in, channel messages out.

#[derive(Clone, Copy, Debug, PartialEq, Eq)]
pub enum Kind {
    NoteOff,
    NoteOn,
    KeyPressure,
    Controller,
    Program,
    ChannelPressure,
    Bend,
}

/// A message with its data bytes; `second` is 0 where there is one byte only.
#[derive(Clone, Copy, Debug, PartialEq, Eq)]
pub struct Message {
    pub kind: Kind,
    pub channel: u8,
    pub first: u8,
    pub second: u8,
}

#[derive(Clone, Copy)]
struct Status {
    kind: Kind,
    channel: u8,
}

/// Reads a line byte by byte: the running status and the first byte held.
#[derive(Clone, Default)]
pub struct Reader {
    running: Option<Status>,
    held: Option<u8>,
}

impl Reader {
    pub fn new() -> Reader {
        Reader::default()
    }

    /// Takes one byte and hands out the message that it ends, if any.
    #[inline]
    pub fn feed(&mut self, byte: u8) -> Option<Message> {
        match byte {
            0x00..=0x7F => self.data(byte),
            0x80..=0xEF => {
                self.begin(Some(Status { kind: kind(byte), channel: byte & 0x0F }));
                None
            }
            0xF0..=0xF7 => {
                self.begin(None);
                None
            }
            0xF8..=0xFF => None,
        }
    }

    fn begin(&mut self, running: Option<Status>) {
        self.running = running;
        self.held = None;
    }

    #[inline]
    fn data(&mut self, byte: u8) -> Option<Message> {
        let Status { kind, channel } = self.running?;
        if matches!(kind, Kind::Program | Kind::ChannelPressure) {
            return Some(Message { kind, channel, first: byte, second: 0 });
        }
        match self.held.take() {
            Some(first) => Some(Message { kind, channel, first, second: byte }),
            None => {
                self.held = Some(byte);
                None
            }
        }
    }
}

fn kind(status: u8) -> Kind {
    match status >> 4 {
        0x8 => Kind::NoteOff,
        0x9 => Kind::NoteOn,
        0xA => Kind::KeyPressure,
        0xB => Kind::Controller,
        0xC => Kind::Program,
        0xD => Kind::ChannelPressure,
        _ => Kind::Bend,
    }
}

#[cfg(test)]
mod tests {
    use super::*;

    fn messages(bytes: &[u8]) -> Vec<Message> {
        let mut reader = Reader::new();
        bytes.iter().filter_map(|&byte| reader.feed(byte)).collect()
    }

    fn message(kind: Kind, channel: u8, first: u8, second: u8) -> Message {
        Message { kind, channel, first, second }
    }

    #[test]
    fn the_example() {
        let line = [0x24, 0x90, 0x24, 0xF8, 0x40, 0x26, 0xC2, 0x05, 0x06, 0xF0, 0x07, 0x80, 0x24, 0x40];
        let expected = [
            message(Kind::NoteOn, 0, 36, 64),
            message(Kind::Program, 2, 5, 0),
            message(Kind::Program, 2, 6, 0),
            message(Kind::NoteOff, 0, 36, 64),
        ];
        assert_eq!(messages(&line), expected);
    }

    #[test]
    fn real_time_and_system() {
        assert_eq!(messages(&[0x90, 0xF8, 0x24, 0x40]), [message(Kind::NoteOn, 0, 36, 64)]);
        assert_eq!(messages(&[0x90, 0xF1, 0x24, 0x40]), []);
        assert_eq!(messages(&[0x90, 0x24, 0xF7, 0x40, 0x24]), []);
        assert_eq!(messages(&[0x9F, 0x24, 0x9F, 0x24, 0x00]), [message(Kind::NoteOn, 15, 36, 0)]);
    }
}
