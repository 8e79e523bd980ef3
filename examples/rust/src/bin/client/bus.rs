//! A host in place of a controller. It resets the bus, asks how many units there are, hears that the
//! power was off, reads a block, writes it with FUA, lets the bus rest, and is gone.
use usbdisk::{Answer, Event};

const GET_MAX_LUN: [u8; 8] = [0xA1, 0xFE, 0, 0, 0, 0, 1, 0];
const TEST: [u8; 6] = [0; 6];
const READ: [u8; 10] = [0x28, 0, 0, 0, 7, 8, 0, 0, 1, 0];
const WRITE: [u8; 10] = [0x2A, 8, 0, 0, 7, 8, 0, 0, 1, 0];
const TO_HOST: u8 = 0x80;

/// The host, by the number of its steps, and the bytes that move.
pub struct Bus {
    step: usize,
    bytes: [u8; 512],
    data: [u8; 2],
}

impl Default for Bus {
    fn default() -> Self {
        let (step, bytes, data) = (0, [0; 512], [0; 2]);
        Bus { step, bytes, data }
    }
}

impl Bus {
    /// The next event of the bus. None: the host is gone.
    pub fn next(&mut self) -> Option<Event<'_>> {
        self.bytes.fill(0x5A);
        let bytes = &mut self.bytes;
        Some(match self.step {
            0 => Event::Reset,
            1 => Event::Setup(&GET_MAX_LUN, &mut self.data),
            2 => wrapped(bytes, 0, 0, &TEST),
            4 => wrapped(bytes, 512, TO_HOST, &READ),
            7 => wrapped(bytes, 512, 0, &WRITE),
            8 => Event::Out(bytes),
            3 | 5 | 6 | 9 => Event::In(bytes),
            10 => Event::Idle,
            _ => return None,
        })
    }

    /// What the endpoint is to answer, and how many bytes were taken, or go to the host. What was answered
    /// NAK comes again once something else has come; an idle while more is left.
    pub fn answer(&mut self, (answer, moved): (Answer, usize)) {
        if self.step == 10 && answer != Answer::Nak {
            return;
        }
        let given = match self.step {
            1 => &self.data[..moved],
            3 | 5 | 6 | 9 => &self.bytes[..moved],
            _ => &[],
        };
        println!("{}: {}", self.name(), told(answer, given));
        self.step += 1;
    }

    fn name(&self) -> &'static str {
        match self.step {
            0 => "bus reset",
            1 => "Get Max LUN",
            2 => "TEST UNIT READY",
            4 => "READ(10)",
            7 => "WRITE(10) with FUA",
            5 | 8 => "its data",
            10 => "idle",
            _ => "its status",
        }
    }
}

fn told(answer: Answer, given: &[u8]) -> String {
    match (answer, given) {
        (Answer::Ack, [.., last]) => format!("ack, the last byte is {last:02X}"),
        (Answer::Ack, []) => "ack".into(),
        (Answer::Nak, _) => "nak".into(),
        (Answer::Stall, _) => "stall".into(),
    }
}

/// A command block wrapper around a command, behind which so many bytes go.
fn wrapped<'p>(packet: &'p mut [u8], size: u16, flags: u8, command: &[u8]) -> Event<'p> {
    let packet = &mut packet[..31];
    packet.fill(0);
    packet[..4].copy_from_slice(b"USBC");
    packet[8..10].copy_from_slice(&size.to_le_bytes());
    packet[12] = flags;
    packet[14] = command.len() as u8;
    packet[15..15 + command.len()].copy_from_slice(command);
    Event::Out(packet)
}
