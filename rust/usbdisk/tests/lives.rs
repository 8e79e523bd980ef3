//! Disks and stores over memory, of which a call is refused: whichever it is, what was answered good is
//! there behind a cut.
mod common;

use common::{refuse_each_call, wrapper};
use usbdisk::{format, format_blank, lay_log, look, memory, migrate, Device, Error, Identity};
use usbdisk::{Answer, Blocks, Event, Fault, Io, Layout, Log, Misuse, BUFFER, SECTOR};

const BLOCKS: u64 = 64;
const SLOTS: u64 = 5;
const SIZE: usize = (Log::end_of(2, SLOTS) + BLOCKS) as usize * SECTOR;
const NEAR: usize = Log::end_of(2, SLOTS) as usize * SECTOR;
const WHO: Identity = Identity::new("EXAMPLE", "MEMORY", "0001", "000000000001");

#[derive(Debug, Clone, Copy, PartialEq)]
struct Refused;

/// What is written is durable behind the next flush. The write or flush of this number is refused, and
/// each read of what lies behind the worn place.
struct Memory {
    bytes: Vec<u8>,
    durable: Vec<u8>,
    calls: u32,
    refused: u32,
    worn: usize,
}

impl Memory {
    fn new() -> Self {
        let bytes = vec![0; SIZE];
        Memory {
            durable: bytes.clone(),
            bytes,
            calls: 0,
            refused: 0,
            worn: SIZE,
        }
    }

    fn with_image(log: u32) -> Self {
        let mut device = Memory::new();
        format(&mut device, &mut [0; BUFFER], log, SLOTS, BLOCKS).unwrap();
        device.calls = 0;
        device
    }

    fn call(&mut self) -> Result<(), Refused> {
        self.calls += 1;
        if self.calls == self.refused {
            return Err(Refused);
        }
        Ok(())
    }

    fn cut(&mut self) {
        self.bytes.copy_from_slice(&self.durable);
        self.refused = 0;
        self.worn = SIZE;
    }
}

impl Device for Memory {
    type Error = Refused;

    fn sectors(&self) -> u64 {
        (self.bytes.len() / SECTOR) as u64
    }

    fn read(&mut self, first: u64, bytes: &mut [u8]) -> Result<(), Refused> {
        let at = first as usize * SECTOR;
        if at + bytes.len() > self.worn {
            return Err(Refused);
        }
        bytes.copy_from_slice(&self.bytes[at..at + bytes.len()]);
        Ok(())
    }

    fn write(&mut self, first: u64, bytes: &[u8]) -> Result<(), Refused> {
        self.call()?;
        let at = first as usize * SECTOR;
        self.bytes[at..at + bytes.len()].copy_from_slice(bytes);
        Ok(())
    }

    fn flush(&mut self) -> Result<(), Refused> {
        self.call()?;
        self.durable.copy_from_slice(&self.bytes);
        Ok(())
    }

    // In lives with refusals disks that keep one to six records.
    fn kept(&self) -> u32 {
        self.refused % 7
    }
}

type Lent<'d> = &'d mut Memory;

const TAKEN: Answer = Answer::Ack;

/// What the host gets that waits for so many bytes.
fn given(disk: &mut Io<'_, Lent<'_>>, size: usize) -> (Answer, Vec<u8>) {
    let mut room = vec![0; size.max(512)];
    let (answer, size) = disk.in_(&mut room).unwrap();
    room.truncate(size);
    (answer, room)
}

fn status(disk: &mut Io<'_, Lent<'_>>) -> Option<u8> {
    given(disk, 13).1.get(12).copied()
}

/// REQUEST SENSE: the key, and the code behind it.
fn sense(disk: &mut Io<'_, Lent<'_>>) -> [u8; 3] {
    disk.out(&wrapper(18, 0x80, &[3, 0, 0, 0, 18, 0]));
    let (answer, bytes) = given(disk, 18);
    assert_eq!((answer, bytes.len()), (Answer::Ack, 18));
    assert_eq!(status(disk), Some(0));
    [bytes[2], bytes[12], bytes[13]]
}

fn read(disk: &mut Io<'_, Lent<'_>>, count: u8) -> (Answer, Vec<u8>) {
    let size = 512 * u16::from(count);
    let command = [0x28, 0, 0, 0, 0, 5, 0, 0, count, 0];
    assert_eq!(disk.out(&wrapper(size, 0x80, &command)), (TAKEN, 31));
    given(disk, size.into())
}

/// Whether a forced WRITE of two blocks is answered good.
fn write(disk: &mut Io<'_, Lent<'_>>) -> bool {
    let command = [0x2A, 8, 0, 0, 0, 5, 0, 0, 2, 0];
    assert_eq!(disk.out(&wrapper(1024, 0, &command)), (TAKEN, 31));
    assert_eq!(disk.out(&[0xA5; 1024]), (TAKEN, 1024));
    status(disk) == Some(0)
}

fn started<'b, 'd>(device: Lent<'d>, buffer: &'b mut [u8]) -> Io<'b, Lent<'d>> {
    Io::start(device, buffer, &WHO, 512).unwrap()
}

fn is_there(device: &mut Memory) -> bool {
    let mut buffer = [0; BUFFER];
    let mut disk = started(device, &mut buffer);
    assert_eq!(sense(&mut disk), [6, 0x29, 0]);
    read(&mut disk, 2) == (Answer::Ack, vec![0xA5; 1024])
}

/// A life in which a call is refused; false where it has fewer.
fn live(log: u32, refused: u32) -> bool {
    let mut buffer = [0; BUFFER];
    let mut device = Memory::with_image(log);
    device.refused = refused;
    let mut disk = match Io::start(&mut device, &mut buffer, &WHO, 512) {
        Ok(disk) => disk,
        Err(error) => return error == Error::Device(Refused),
    };
    assert_eq!(sense(&mut disk), [6, 0x29, 0]);
    let is_good = write(&mut disk);
    assert_eq!(is_good, disk.error().is_none());
    while disk.idle() {}
    let is_refused = disk.error() == Some(&Refused);
    if is_refused {
        let first = sense(&mut disk);
        assert!(is_good || first == [3, 0x0C, 0], "{first:?}");
        assert!(!write(&mut disk));
        assert_eq!(sense(&mut disk), [4, 0x44, 0]);
    }
    drop(disk);
    device.cut();
    let found = is_there(&mut device);
    assert!(found || !is_good, "a WRITE that was answered good is lost");
    is_refused
}

#[test]
fn a_refused_call_is_never_answered_good() {
    refuse_each_call(live);
}

#[test]
fn a_sector_that_cannot_be_read_ends_one_read() {
    let mut buffer = [0; BUFFER];
    let mut device = Memory::with_image(2);
    device.bytes[NEAR + 5 * SECTOR..NEAR + 7 * SECTOR].fill(0xA5);
    device.worn = NEAR;
    let mut disk = started(&mut device, &mut buffer);
    assert_eq!(sense(&mut disk), [6, 0x29, 0]);
    assert_eq!(read(&mut disk, 1), (Answer::Stall, vec![]));
    let clear = [2, 1, 0, 0, 0x81, 0, 0, 0];
    assert_eq!(disk.setup(&clear, &mut [0; 2]), (Answer::Ack, 0));
    assert_eq!(status(&mut disk), Some(1));
    assert_eq!(sense(&mut disk), [3, 0x11, 0]);
    assert_eq!(disk.error(), None);
    disk.stop().worn = SIZE;
    assert!(is_there(&mut device));
    device.worn = SECTOR;
    let start = |device, buffer| Io::start(device, buffer, &WHO, 512).err();
    let bad = Some(Error::Device(Refused));
    assert_eq!(start(&mut device, &mut buffer), bad);
}

/// Blocks that are written, promised and brought home; the call in which the device refused ends it.
fn use_store(store: &mut Blocks<'_, Lent<'_>>, promised: &mut bool) -> Result<(), Error<Refused>> {
    let before = store.device().calls;
    store.write(7, &[0x5A; 3 * SECTOR])?;
    store.sync()?;
    assert!(store.device().calls > before);
    *promised = true;
    while store.idle()? {}
    Ok(())
}

/// Blocks behind a cut: whole, and as the calls on them are refused.
fn found(device: &mut Memory) -> [u8; 3 * SECTOR] {
    let (mut buffer, mut found) = ([0; BUFFER], [0; 3 * SECTOR]);
    let mut store = Blocks::start(device, &mut buffer).unwrap();
    store.read(7, &mut found).unwrap();
    let is_whole = found.iter().all(|it| *it == found[0]);
    assert!(is_whole, "a write is there in part");
    let bad = Err(Misuse::BadLength.into());
    assert_eq!(store.read(7, &mut found[..511]), bad);
    let bad = Err(Misuse::BadRange.into());
    assert_eq!(store.read(BLOCKS, &mut [0; SECTOR]), bad);
    assert_eq!(store.write(BLOCKS, &[0; SECTOR]), bad);
    found
}

/// A life of a store in which a call is refused; false where it has fewer.
fn live_by_blocks(log: u32, refused: u32) -> bool {
    let mut buffer = [0; BUFFER];
    let mut device = Memory::with_image(log);
    device.refused = refused;
    let mut store = match Blocks::start(&mut device, &mut buffer) {
        Ok(store) => store,
        Err(error) => return error == Error::Device(Refused),
    };
    let limit = Log::limit_of(log);
    assert_eq!((store.blocks(), store.limit()), (BLOCKS, limit));
    let mut promised = false;
    let ended = use_store(&mut store, &mut promised);
    if ended.is_err() {
        assert_eq!(ended, Err(Error::Device(Refused)));
        assert_eq!(store.sync(), Err(Fault::Dead.into()));
        assert_eq!(store.idle(), Ok(false));
    }
    drop(store);
    device.cut();
    let is_there = found(&mut device) == [0x5A; 3 * SECTOR];
    assert!(!promised || is_there, "a promised write is lost");
    ended.is_err()
}

#[test]
fn a_store_keeps_what_a_sync_promised() {
    refuse_each_call(live_by_blocks);
}

#[test]
fn a_store_tells_which_blocks_cannot_be_read() {
    let (mut buffer, mut found) = ([0; BUFFER], [0; SIZE - NEAR]);
    let mut device = Memory::with_image(1);
    let home = Log::end_of(1, SLOTS) as usize * SECTOR;
    device.bytes[home..].fill(0x5A);
    device.worn = home + 8 * SECTOR;
    let mut store = Blocks::start(&mut device, &mut buffer).unwrap();
    let bad = Err(Error::Device(Refused));
    assert_eq!(store.read(8, &mut found[..SECTOR]), bad);
    assert_eq!(store.read(7, &mut found[..SECTOR]), Ok(()));
    assert_eq!(store.stop().calls, 4);
    device.worn = SIZE;
    let mut store = Blocks::start(&mut device, &mut buffer).unwrap();
    assert_eq!(store.read(0, &mut found), Ok(()));
    assert_eq!(found, [0x5A; SIZE - NEAR]);
}

#[test]
fn images_are_laid_and_migrated_over_what_is_there() {
    let mut device = Memory::new();
    let home = Log::end_of(1, SLOTS);
    device.bytes[home as usize * SECTOR..].fill(0xA5);
    device.durable.copy_from_slice(&device.bytes);
    lay_log(&mut device, &mut [0; SECTOR], 1, SLOTS, BLOCKS).unwrap();
    let mut sector = [0; SECTOR];
    device.read(0, &mut sector).unwrap();
    let told = Layout {
        format: 1,
        slots: SLOTS,
        blocks: BLOCKS,
        home,
        sectors: home + BLOCKS,
    };
    assert_eq!(look(&sector), Ok(told));
    assert!(memory(1, SLOTS) > 0 && memory(3, SLOTS) == 0);
    assert!(is_there(&mut device));
    migrate(&mut device, &mut [0; 3 * SECTOR]).unwrap();
    device.read(0, &mut sector).unwrap();
    assert_eq!(
        look(&sector).map(|it| (it.format, it.blocks)),
        Ok((2, BLOCKS))
    );
    assert!(is_there(&mut device));
}

#[test]
fn a_migration_tells_what_is_no_image() {
    let mut device = Memory::new();
    let buffer = &mut [0; SECTOR];
    assert_eq!(migrate(&mut device, buffer), Err(Fault::BadSuper.into()));
    format(&mut device, buffer, 1, 4, BLOCKS).unwrap();
    assert_eq!(migrate(&mut device, buffer), Err(Fault::LogTooSmall.into()));
    device.worn = 0;
    let bad = Err(Error::Device(Refused));
    assert_eq!(format(&mut device, buffer, 1, SLOTS, BLOCKS), bad);
    device.worn = SIZE;
    device.refused = device.calls + 3;
    assert_eq!(format(&mut device, buffer, 1, SLOTS, BLOCKS), bad);
    let bad = Err(Misuse::BadLength.into());
    assert_eq!(format(&mut device, &mut [], 1, SLOTS, BLOCKS), bad);
}

#[test]
fn a_blank_device_alone_gets_an_image() {
    let buffer = &mut [0; BUFFER];
    for blank in [0x00, 0xFF] {
        let mut device = Memory::new();
        device.bytes[..SECTOR].fill(blank);
        device.bytes[SECTOR - 1] ^= 1;
        assert_eq!(format_blank(&mut device, buffer, 2, SLOTS, 0), Ok(()));
        assert_eq!(device.calls, 0);
        device.bytes[SECTOR - 1] ^= 1;
        let bad = Err(Misuse::BadSizes.into());
        let more = BLOCKS + 1;
        assert_eq!(format_blank(&mut device, buffer, 2, SLOTS, more), bad);
        assert_eq!(format_blank(&mut device, buffer, 2, u64::MAX, 0), bad);
        assert_eq!(format_blank(&mut device, buffer, 2, SLOTS, 0), Ok(()));
        let layout = look(device.bytes[..SECTOR].try_into().unwrap()).unwrap();
        assert_eq!((layout.format, layout.blocks), (2, BLOCKS));
        device.calls = 0;
        assert_eq!(format_blank(&mut device, buffer, 2, SLOTS, 0), Ok(()));
        assert_eq!(device.calls, 0);
    }
}

#[test]
fn an_event_is_played_by_the_call_of_its_kind() {
    let (mut buffer, mut room) = ([0; BUFFER], [0; 512]);
    let mut device = Memory::with_image(2);
    let mut disk = started(&mut device, &mut buffer);
    let sense = wrapper(18, 0x80, &[3, 0, 0, 0, 18, 0]);
    let (taken, wait) = (Ok((Answer::Ack, 31)), Ok((Answer::Nak, 0)));
    assert_eq!(disk.play(Event::In(&mut room)), wait);
    assert_eq!(disk.play(Event::Out(&sense)), taken);
    assert_eq!(disk.play(Event::Out(&sense)), wait);
    assert_eq!(disk.play(Event::In(&mut room)), Ok((Answer::Ack, 18)));
    assert_eq!(disk.play(Event::Reset), Ok((Answer::Ack, 0)));
    assert_eq!(disk.play(Event::In(&mut room)), wait);
    let (lun, mut data) = ([0xA1, 0xFE, 0, 0, 0, 0, 1, 0], [0xFF; 2]);
    let played = disk.play(Event::Setup(&lun, &mut data));
    assert_eq!((played, data[0]), (Ok((Answer::Ack, 1)), 0));
    let short = disk.play(Event::In(&mut room[..511]));
    assert_eq!(short, Err(Misuse::BadLength));
    assert!(write(&mut disk));
    while disk.play(Event::Idle) == Ok((Answer::Ack, 0)) {}
    assert_eq!(disk.play(Event::Idle), wait);
    drop(disk);
    assert_eq!(device.bytes[NEAR + 5 * SECTOR], 0xA5);
}

#[test]
fn what_does_not_fit_is_refused_by_name() {
    let mut buffer = [0; BUFFER];
    let mut start = |device: &mut Memory, size, packet| {
        let started = Io::start(device, &mut buffer[..size], &WHO, packet);
        started.err()
    };
    let mut device = Memory::with_image(2);
    assert_eq!(start(&mut device, BUFFER, 512), None);
    let bad = Some(Misuse::BadLength.into());
    assert_eq!(start(&mut device, BUFFER - 1, 512), bad);
    let bad = Some(Misuse::BadPacketSize.into());
    assert_eq!(start(&mut device, BUFFER, 63), bad);
    let mut short = Memory::with_image(1);
    assert_eq!(start(&mut short, Log::limit_of(1) * SECTOR, 64), None);
    let bad = Some(Misuse::BadLength.into());
    assert_eq!(start(&mut short, Log::limit_of(1) * SECTOR - 1, 64), bad);
    device.bytes[SECTOR] ^= 1;
    assert_eq!(start(&mut device, BUFFER, 512), Some(Fault::BadHead.into()));
    device.bytes[0] ^= 1;
    let bad: Error<Refused> = Fault::BadSuper.into();
    assert_eq!(start(&mut device, BUFFER, 512), Some(bad));
    let bad = Err(Misuse::BadSizes.into());
    let buffer = &mut buffer;
    assert_eq!(format(&mut device, buffer, 3, SLOTS, BLOCKS), bad);
}
