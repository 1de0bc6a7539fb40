//! Two hosts on one line, from request 2.9 of document 02: bit by bit, as the line has it.

use crate::{refused, Device, Event, Refusal};

/// Who survives.
#[derive(Clone, Copy, Debug, PartialEq, Eq)]
pub enum Winner {
    First,
    Second,
    Both,
}

/// A host with its message, and whether it still sends.
struct Host<'a> {
    message: &'a [u8],
    sending: bool,
}

impl Host<'_> {
    /// The bit that it sends of byte `at`; a host that sends nothing leaves the line at 1.
    fn bit(&self, at: usize, bit: usize) -> bool {
        match self.message.get(at) {
            Some(byte) if self.sending => byte >> bit & 1 == 1,
            _ => true,
        }
    }
}

/// The two on the line until neither sends: who survives, and the bytes that the line carried.
pub fn on_line(first: &[u8], second: &[u8]) -> (Winner, Vec<u8>) {
    let mut hosts = [first, second].map(|message| Host { message, sending: true });
    let mut carried = Vec::new();
    while hosts.iter().any(|host| host.sending && carried.len() < host.message.len()) {
        let at = carried.len();
        let mut byte = 0;
        for bit in (0..8).rev() {
            let line = hosts[0].bit(at, bit) && hosts[1].bit(at, bit);
            for host in &mut hosts {
                if host.bit(at, bit) && !line {
                    host.sending = false;
                }
            }
            byte = byte << 1 | u8::from(line);
        }
        carried.push(byte);
    }
    let winner = match hosts.map(|host| host.sending) {
        [true, true] => Winner::Both,
        [true, false] => Winner::First,
        [false, true] => Winner::Second,
        [false, false] => unreachable!("a host drops out where the other sends 0"),
    };
    (winner, carried)
}

impl Device {
    /// Two hosts that start together: the device receives a start, what the line carried and a stop; or refusal 20, 21 or
    /// 22, which leaves it.
    pub fn arbitrate(&mut self, first: &[u8], second: &[u8]) -> Result<Winner, Refusal> {
        let messages = [first, second];
        if messages.iter().any(|message| message.is_empty() || message.len() > 16) {
            return refused(20, 0);
        }
        if messages.iter().any(|message| message[0] % 2 == 1) {
            return refused(21, 0);
        }
        if first.len() != second.len() && (first.starts_with(second) || second.starts_with(first)) {
            return refused(22, 0);
        }
        let (winner, carried) = on_line(first, second);
        self.apply(Event::new(b'S', 0, 0))?;
        for byte in carried {
            self.apply(Event::new(b'B', 0, u16::from(byte)))?;
        }
        self.apply(Event::new(b'E', 0, 0))?;
        Ok(winner)
    }
}
