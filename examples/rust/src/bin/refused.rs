//! A device that refuses a call once, and a caller that goes on: a WRITE with FUA during which a call was
//! refused is never answered good, whichever call it was, in both formats.
use std::cell::Cell;
use usbdisk::{format, log_of, Answer, Device, Error, Identity, Io, BUFFER};

const BLOCKS: u64 = 64;
const SLOTS: u64 = 3;
const GOOD: u8 = 0;
const WRITTEN: [u8; 512] = [0xA5; 512];
const WHO: Identity = Identity::new("EXAMPLE", "MEMORY", "0001", "000000000001");

#[derive(Debug)]
struct Refused;

/// What is written is durable behind the next flush. The call of this number is refused.
struct Memory {
    bytes: Vec<u8>,
    durable: Vec<u8>,
    left: Cell<u32>,
}

impl Memory {
    /// The call of this number from now is refused, or none at 0.
    fn refuse(&self, number: u32) {
        self.left.set(number);
    }

    fn call(&self) -> Result<(), Refused> {
        let left = self.left.get();
        self.left.set(left.saturating_sub(1));
        if left == 1 {
            return Err(Refused);
        }
        Ok(())
    }
}

impl Device for Memory {
    type Error = Refused;

    fn sectors(&self) -> u64 {
        self.bytes.len() as u64 / 512
    }

    fn read(&mut self, first: u64, bytes: &mut [u8]) -> Result<(), Refused> {
        let at = first as usize * 512;
        bytes.copy_from_slice(&self.bytes[at..at + bytes.len()]);
        Ok(())
    }

    fn write(&mut self, first: u64, bytes: &[u8]) -> Result<(), Refused> {
        self.call()?;
        let at = first as usize * 512;
        self.bytes[at..at + bytes.len()].copy_from_slice(bytes);
        Ok(())
    }

    fn flush(&mut self) -> Result<(), Refused> {
        self.call()?;
        self.durable.copy_from_slice(&self.bytes);
        Ok(())
    }
}

fn wrapper(length: u16, flags: u8, command: &[u8]) -> [u8; 31] {
    let mut bytes = [0; 31];
    bytes[..4].copy_from_slice(b"USBC");
    bytes[8..10].copy_from_slice(&length.to_le_bytes());
    bytes[12] = flags;
    bytes[14] = command.len() as u8;
    bytes[15..15 + command.len()].copy_from_slice(command);
    bytes
}

type Lent<'d, 'b> = Io<'b, &'d mut Memory>;

/// A disk whose unit attention was told.
fn start<'d, 'b>(
    device: &'d mut Memory,
    buffer: &'b mut [u8],
) -> Result<Lent<'d, 'b>, Error<Refused>> {
    let mut disk = Io::start(device, buffer, &WHO, 512)?;
    disk.out(&wrapper(18, 0x80, &[3, 0, 0, 0, 18, 0]));
    let mut room = [0; 512];
    disk.in_(&mut room)?;
    disk.in_(&mut room)?;
    Ok(disk)
}

/// The status of a WRITE with FUA during which the call of this number was refused; none where it
/// made fewer.
fn write(device: &mut Memory, refused: u32) -> Result<Option<u8>, Error<Refused>> {
    let mut buffer = [0; BUFFER];
    let mut disk = start(device, &mut buffer)?;
    disk.device().refuse(refused);
    disk.out(&wrapper(512, 0, &[0x2A, 8, 0, 0, 0, 5, 0, 0, 1, 0]));
    disk.out(&WRITTEN);
    if disk.error().is_none() {
        return Ok(None);
    }
    let mut room = [0; 512];
    match disk.in_(&mut room)? {
        (Answer::Ack, 13) => Ok(Some(room[12])),
        _ => Ok(Some(0xFF)),
    }
}

/// Whether the block is there behind a cut.
fn is_there(device: &mut Memory) -> Result<bool, Error<Refused>> {
    let mut buffer = [0; BUFFER];
    device.bytes.copy_from_slice(&device.durable);
    device.refuse(0);
    let mut disk = start(device, &mut buffer)?;
    disk.out(&wrapper(512, 0x80, &[0x28, 0, 0, 0, 0, 5, 0, 0, 1, 0]));
    let mut room = [0; 512];
    let moved = disk.in_(&mut room)?;
    Ok(moved == (Answer::Ack, 512) && room == WRITTEN)
}

/// The status of the WRITE, and whether its block is there.
fn live(log: u32, refused: u32) -> Result<Option<(u8, bool)>, Error<Refused>> {
    let home = log_of(log, SLOTS, 1)?.home;
    let bytes = vec![0; 512 * (home + BLOCKS) as usize];
    let durable = bytes.clone();
    let mut device = Memory {
        bytes,
        durable,
        left: Cell::new(0),
    };
    format(&mut device, &mut [0; BUFFER], log, SLOTS, BLOCKS)?;
    match write(&mut device, refused)? {
        Some(status) => Ok(Some((status, is_there(&mut device)?))),
        None => Ok(None),
    }
}

fn main() -> Result<(), Error<Refused>> {
    for log in 1..=2 {
        let mut refused = 1;
        while let Some((status, there)) = live(log, refused)? {
            println!("format {log}, call {refused} refused: status {status}");
            assert!(
                status != GOOD || there,
                "a WRITE that was answered good is lost"
            );
            refused += 1;
        }
    }
    Ok(())
}
