//! The program of examples/c over a device in memory: REQUEST SENSE, a WRITE with FUA, a READ, a class
//! reset and a bus reset.
use std::convert::Infallible;
use usbdisk::{format, log_of, version, Answer, Device, Error, Identity, Io, BUFFER, VERSION};

const BLOCKS: u64 = 64;
const SLOTS: u64 = 2;
const WHO: Identity = Identity::new("EXAMPLE", "MEMORY", "0001", "000000000001");

#[derive(Debug)]
struct Memory {
    bytes: Vec<u8>,
    sectors: usize,
    writes: u32,
    flushes: u32,
}

impl Device for Memory {
    type Error = Infallible;

    fn sectors(&self) -> u64 {
        self.bytes.len() as u64 / 512
    }

    fn read(&mut self, first: u64, bytes: &mut [u8]) -> Result<(), Infallible> {
        let at = first as usize * 512;
        bytes.copy_from_slice(&self.bytes[at..at + bytes.len()]);
        Ok(())
    }

    fn write(&mut self, first: u64, bytes: &[u8]) -> Result<(), Infallible> {
        let at = first as usize * 512;
        self.bytes[at..at + bytes.len()].copy_from_slice(bytes);
        self.sectors += bytes.len() / 512;
        self.writes += 1;
        Ok(())
    }

    fn flush(&mut self) -> Result<(), Infallible> {
        self.flushes += 1;
        Ok(())
    }
}

fn wrapper(tag: u8, length: u16, flags: u8, command: &[u8]) -> [u8; 31] {
    let mut bytes = [0; 31];
    bytes[..4].copy_from_slice(b"USBC");
    bytes[4] = tag;
    bytes[8..10].copy_from_slice(&length.to_le_bytes());
    bytes[12] = flags;
    bytes[14] = command.len() as u8;
    bytes[15..15 + command.len()].copy_from_slice(command);
    bytes
}

fn show(what: &str, answer: Answer, given: &[u8]) {
    match (answer, given) {
        (Answer::Ack, []) => println!("{what}: ack"),
        (Answer::Ack, bytes) => println!("{what}: ack, {bytes:02X?}"),
        (Answer::Nak, _) => println!("{what}: nak"),
        (Answer::Stall, _) => println!("{what}: stall"),
    }
}

type Shown<'b> = Io<'b, Memory>;

/// The host sends these bytes.
fn send(what: &str, disk: &mut Shown<'_>, bytes: &[u8]) {
    let (answer, _) = disk.out(bytes);
    show(what, answer, &[]);
}

/// The host waits for a packet.
fn wait(what: &str, disk: &mut Shown<'_>) -> Result<(), Error<Infallible>> {
    let mut room = [0; 512];
    let (answer, size) = disk.in_(&mut room)?;
    show(what, answer, &room[..size]);
    Ok(())
}

const SENSE: [u8; 6] = [3, 0, 0, 0, 18, 0];
const READ: [u8; 10] = [0x28, 0, 0, 0, 0, 5, 0, 0, 1, 0];
const WRITE: [u8; 10] = [0x2A, 8, 0, 0, 0, 5, 0, 0, 1, 0];

fn serve(disk: &mut Shown<'_>) -> Result<(), Error<Infallible>> {
    send("REQUEST SENSE", disk, &wrapper(1, 18, 0x80, &SENSE));
    wait("  data", disk)?;
    wait("  status", disk)?;
    send("WRITE(10) with FUA", disk, &wrapper(2, 512, 0, &WRITE));
    send("  data", disk, &[0xA5; 512]);
    wait("  status", disk)?;
    send("READ(10)", disk, &wrapper(3, 512, 0x80, &READ));
    let mut block = [0; 512];
    assert_eq!(disk.in_(&mut block)?, (Answer::Ack, 512));
    assert_eq!(block, [0xA5; 512]);
    wait("  status", disk)?;
    send("a packet that is no wrapper", disk, &[0; 3]);
    wait("  the in endpoint", disk)?;
    let (answer, _) = disk.setup(&[0x21, 0xFF, 0, 0, 0, 0, 0, 0], &mut [0; 2]);
    show("class reset", answer, &[]);
    disk.bus_reset();
    let what = "READ(10), and a bus reset before its data";
    send(what, disk, &wrapper(4, 512, 0x80, &READ));
    disk.bus_reset();
    wait("the in endpoint", disk)
}

fn main() -> Result<(), Error<Infallible>> {
    assert_eq!(version(), VERSION);
    let log = log_of(1, SLOTS, 1)?;
    let bytes = vec![0; 512 * (log.home + BLOCKS) as usize];
    let mut device = Memory {
        bytes,
        sectors: 0,
        writes: 0,
        flushes: 0,
    };
    let mut buffer = [0; BUFFER];
    format(&mut device, &mut buffer, 1, SLOTS, BLOCKS)?;
    (device.sectors, device.writes, device.flushes) = (0, 0, 0);
    let mut disk = Io::start(device, &mut buffer, &WHO, 512)?;
    serve(&mut disk)?;
    while disk.idle() {}
    let device = disk.stop();
    let (sectors, writes, flushes) = (device.sectors, device.writes, device.flushes);
    println!("all at home: {sectors} sectors by {writes} writes, {flushes} flushes");
    // Block 5 is at home, on the device.
    let home = 512 * (log.home + 5) as usize;
    let is_there = device.bytes[home..home + 512] == [0xA5; 512];
    println!("the device holds what was written: {is_there}");
    Ok(())
}
