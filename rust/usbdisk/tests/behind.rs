//! Disks over memory that is behind: its call is under way for as long as the test likes, and one of
//! them is refused. What was answered good, and promises, is there behind a cut.
mod common;

use common::{refuse_each_call, wrapper};
use usbdisk::{format, look, Answer, Call, Calls, Device, Disk, Error, Fault, Identity, Image};
use usbdisk::{Log, Misuse, Plan, Refusal, State, Store, BUFFER, SECTOR};

const BLOCKS: u64 = 64;
const SLOTS: u64 = 5;
const SECTORS: u64 = Log::end_of(2, SLOTS) + BLOCKS;
const WHO: Identity = Identity::new("EXAMPLE", "BEHIND", "0001", "000000000001");
const READ: [u8; 10] = [0x28, 0, 0, 0, 0, 5, 0, 0, 1, 0];
const WRITE: [u8; 10] = [0x2A, 0, 0, 0, 0, 5, 0, 0, 1, 0];
const FORCED: [u8; 10] = [0x2A, 8, 0, 0, 0, 5, 0, 0, 1, 0];

/// What is written is durable behind the next flush.
struct Memory {
    bytes: Vec<u8>,
    durable: Vec<u8>,
}

impl Device for Memory {
    type Error = ();

    fn sectors(&self) -> u64 {
        SECTORS
    }

    fn read(&mut self, first: u64, bytes: &mut [u8]) -> Result<(), ()> {
        let at = first as usize * SECTOR;
        bytes.copy_from_slice(&self.bytes[at..at + bytes.len()]);
        Ok(())
    }

    fn write(&mut self, first: u64, bytes: &[u8]) -> Result<(), ()> {
        let at = first as usize * SECTOR;
        self.bytes[at..at + bytes.len()].copy_from_slice(bytes);
        Ok(())
    }

    fn flush(&mut self) -> Result<(), ()> {
        self.durable.copy_from_slice(&self.bytes);
        Ok(())
    }
}

impl Memory {
    fn with_image(log: u32) -> Self {
        let bytes = vec![0; SECTORS as usize * SECTOR];
        let durable = bytes.clone();
        let mut device = Memory { bytes, durable };
        format(&mut device, &mut [0; BUFFER], log, SLOTS, BLOCKS).unwrap();
        device
    }

    fn cut(&mut self) {
        self.bytes.copy_from_slice(&self.durable);
    }
}

/// A disk and its device. The write or flush of this number is refused.
struct Bench<'d> {
    disk: Disk,
    device: &'d mut Memory,
    buffer: Vec<u8>,
    calls: u32,
    refused: u32,
}

impl<'d> Bench<'d> {
    fn new(device: &'d mut Memory, refused: u32) -> Self {
        Bench {
            disk: Disk::start(SECTORS, &WHO, 512).unwrap(),
            device,
            buffer: vec![0; BUFFER],
            calls: 0,
            refused,
        }
    }

    /// The device takes its next call, and ends it: whether there was one.
    fn work(&mut self) -> bool {
        let call = self.disk.next(&mut self.buffer).unwrap();
        if matches!(call, Call::Write { .. } | Call::Flush) {
            self.calls += 1;
            if self.calls == self.refused {
                self.disk.done(false, &[]).unwrap();
                return true;
            }
        }
        let mut given = 0;
        match call {
            Call::Nothing => return false,
            Call::Read { sector, count } => {
                given = count * SECTOR;
                self.device.read(sector, &mut self.buffer[..given]).unwrap();
            }
            Call::Write { sector, count } => self
                .device
                .write(sector, &self.buffer[..count * SECTOR])
                .unwrap(),
            Call::Flush => self.device.flush().unwrap(),
        }
        self.disk.done(true, &self.buffer[..given]).unwrap();
        true
    }

    fn catch_up(&mut self) {
        while self.work() {}
    }

    /// Bytes of the host, which the device may have to work for: how they are answered.
    fn send(&mut self, bytes: &[u8]) -> Answer {
        let mut taken = 0;
        loop {
            let (answer, size) = self.disk.out(&bytes[taken..]);
            taken += size;
            if answer != Answer::Nak || !self.work() {
                return answer;
            }
        }
    }

    /// What the disk has for the host.
    fn given(&mut self) -> (Answer, Vec<u8>) {
        let mut room = vec![0; 512];
        let (answer, size) = self.disk.in_(&mut room).unwrap();
        room.truncate(size);
        (answer, room)
    }

    /// The same, which the device may have to work for.
    fn received(&mut self) -> (Answer, Vec<u8>) {
        loop {
            let (answer, bytes) = self.given();
            if answer != Answer::Nak || !self.work() {
                return (answer, bytes);
            }
        }
    }

    fn status(&mut self) -> Option<u8> {
        self.received().1.get(12).copied()
    }

    /// REQUEST SENSE: the key, and the code behind it.
    fn sense(&mut self) -> [u8; 3] {
        self.send(&wrapper(18, 0x80, &[3, 0, 0, 0, 18, 0]));
        let (answer, bytes) = self.given();
        assert_eq!((answer, bytes.len()), (Answer::Ack, 18));
        assert_eq!(self.status(), Some(0));
        [bytes[2], bytes[12], bytes[13]]
    }

    fn write(&mut self, command: &[u8]) -> Option<u8> {
        self.send(&wrapper(512, 0, command));
        self.send(&[0xA5; 512]);
        self.status()
    }

    fn is_there(&mut self) -> bool {
        self.send(&wrapper(512, 0x80, &READ));
        let is_there = self.received() == (Answer::Ack, vec![0xA5; 512]);
        self.status();
        is_there
    }
}

fn is_there(device: &mut Memory) -> bool {
    let mut bench = Bench::new(device, 0);
    bench.catch_up();
    assert_eq!(bench.sense(), [6, 0x29, 0]);
    bench.is_there()
}

/// A life in which a call is refused; false where it has fewer.
fn live(log: u32, refused: u32) -> bool {
    let mut device = Memory::with_image(log);
    let mut bench = Bench::new(&mut device, refused);
    bench.catch_up();
    if matches!(bench.disk.state(), State::Faulted | State::Failed(_)) {
        return true;
    }
    assert_eq!(bench.sense(), [6, 0x29, 0]);
    let is_good = bench.write(&FORCED) == Some(0);
    while bench.disk.state() != State::Faulted && bench.disk.idle() {
        bench.catch_up();
    }
    bench.catch_up();
    let is_refused = bench.disk.state() == State::Faulted;
    if is_refused {
        let first = bench.sense();
        assert!(is_good || first == [3, 0x0C, 0], "{first:?}");
        assert_eq!(bench.write(&WRITE), Some(1));
        assert_eq!(bench.sense(), [4, 0x44, 0]);
        assert!(bench.disk.idle() && !bench.work());
    }
    assert!(is_good || is_refused);
    device.cut();
    let found = is_there(&mut device);
    assert!(found || !is_good, "a WRITE that was answered good is lost");
    is_refused
}

#[test]
fn a_refused_call_is_never_answered_good() {
    refuse_each_call(live);
}

#[test]
fn a_plain_write_is_answered_while_the_device_works_and_a_promise_is_not() {
    let mut device = Memory::with_image(2);
    let mut bench = Bench::new(&mut device, 0);
    assert_eq!(bench.disk.state(), State::Starting);
    let test = wrapper(0, 0, &[0; 6]);
    assert_eq!(bench.disk.out(&test), (Answer::Nak, 0));
    let (lun, data) = ([0xA1, 0xFE, 0, 0, 0, 0, 1, 0], &mut [0xFF; 2]);
    assert_eq!(bench.disk.setup(&lun, data), (Answer::Stall, 0));
    bench.catch_up();
    assert_eq!(bench.disk.state(), State::Serving);
    assert_eq!(bench.sense(), [6, 0x29, 0]);
    assert_eq!(bench.write(&FORCED), Some(0));
    bench.disk.idle();
    let call = bench.disk.next(&mut bench.buffer).unwrap();
    assert_ne!(call, Call::Nothing);
    let mut send = |bytes: &[u8]| assert_eq!(bench.disk.out(bytes), (Answer::Ack, bytes.len()));
    send(&wrapper(512, 0, &WRITE));
    send(&[0xA5; 512]);
    let (answer, bytes) = bench.given();
    assert_eq!((answer, bytes.len()), (Answer::Ack, 13));
    let mut send = |bytes: &[u8]| assert_eq!(bench.disk.out(bytes), (Answer::Ack, bytes.len()));
    send(&wrapper(512, 0, &FORCED));
    send(&[0xA5; 512]);
    assert_eq!(bench.given(), (Answer::Nak, vec![]));
    assert_eq!(bench.disk.out(&test), (Answer::Nak, 0));
    bench.disk.done(true, &[]).unwrap();
    assert_eq!(bench.given(), (Answer::Nak, vec![]));
    assert_eq!(bench.disk.setup(&lun, data), (Answer::Ack, 1));
    let call = bench.disk.next(&mut bench.buffer).unwrap();
    assert_ne!(call, Call::Nothing);
    assert_eq!(bench.disk.next(&mut bench.buffer), Ok(Call::Nothing));
    bench.disk.bus_reset();
    assert_eq!(bench.given(), (Answer::Nak, vec![]));
}

#[test]
fn a_bus_reset_drops_an_answer_and_clears_the_halts() {
    let mut device = Memory::with_image(1);
    let mut bench = Bench::new(&mut device, 0);
    bench.catch_up();
    let sense = wrapper(18, 0x80, &[3, 0, 0, 0, 18, 0]);
    assert_eq!(bench.disk.out(&sense), (Answer::Ack, 31));
    bench.disk.bus_reset();
    assert_eq!(bench.given().0, Answer::Nak);
    bench.disk.out(&[0; 3]);
    assert_eq!(bench.disk.out(&sense), (Answer::Stall, 0));
    assert_eq!(bench.given().0, Answer::Stall);
    bench.disk.bus_reset();
    assert_eq!(bench.given().0, Answer::Nak);
    assert_eq!(bench.sense(), [0, 0, 0]);
}

#[test]
fn a_read_waits_for_its_sectors_and_ends_where_they_are_refused() {
    let mut device = Memory::with_image(2);
    let home = (Log::end_of(2, SLOTS) + 5) as usize * SECTOR;
    device.bytes[home..home + SECTOR].fill(0xA5);
    let mut bench = Bench::new(&mut device, 0);
    bench.catch_up();
    assert_eq!(bench.sense(), [6, 0x29, 0]);
    let read = wrapper(512, 0x80, &READ);
    assert_eq!(bench.disk.out(&read), (Answer::Ack, 31));
    assert_eq!(bench.given(), (Answer::Nak, vec![]));
    let (sector, count) = (Log::end_of(2, SLOTS) + 5, 1);
    let asked = Call::Read { sector, count };
    assert_eq!(bench.disk.next(&mut bench.buffer), Ok(asked));
    assert_eq!(bench.disk.done(true, &[0; 511]), Err(Misuse::BadLength));
    assert_eq!(bench.disk.done(false, &[]), Ok(()));
    assert_eq!(bench.given().0, Answer::Stall);
    bench.disk.setup(&[2, 1, 0, 0, 0x81, 0, 0, 0], &mut [0; 2]);
    assert_eq!(bench.status(), Some(1));
    assert_eq!(bench.sense(), [3, 0x11, 0]);
    assert_eq!(bench.disk.state(), State::Serving);
    assert!(bench.is_there());
}

#[test]
fn sectors_are_read_ahead_of_the_read_that_lacks_them() {
    let mut device = Memory::with_image(2);
    let mut bench = Bench::new(&mut device, 0);
    let (sector, count) = (Log::end_of(2, SLOTS) + 5, 2);
    assert!(!bench.disk.ahead(sector, 2));
    bench.catch_up();
    assert_eq!(bench.sense(), [6, 0x29, 0]);
    let over = Log::limit_of(2) as u32 + 1;
    assert!(!bench.disk.ahead(sector, over) && !bench.disk.ahead(SECTORS - 1, 2));
    assert!(bench.disk.ahead(sector, 2));
    let asked = Call::Read { sector, count };
    assert_eq!(bench.disk.next(&mut bench.buffer), Ok(asked));
    assert_eq!(bench.disk.done(true, &[0xA5; 2 * SECTOR]), Ok(()));
    let read = wrapper(512, 0x80, &READ);
    assert_eq!(bench.disk.out(&read), (Answer::Ack, 31));
    assert_eq!(bench.given(), (Answer::Ack, vec![0xA5; SECTOR]));
}

#[test]
fn what_does_not_fit_is_refused_by_name() {
    let start = |who: &Identity, packet| Disk::start(SECTORS, who, packet).err();
    assert_eq!(start(&WHO, 63), Some(Misuse::BadPacketSize.into()));
    let mut who = WHO;
    who.vendor[0] = 0;
    assert_eq!(start(&who, 64), Some(Misuse::BadIdentity.into()));
    let mut disk = Disk::start(SECTORS, &WHO, 64).unwrap();
    assert_eq!(disk.done(true, &[]), Err(Misuse::NotAsked));
    assert_eq!(disk.next(&mut []), Err(Misuse::BadLength));
    assert_eq!(disk.next(&mut [0; 513]), Err(Misuse::BadLength));
    assert_eq!(disk.in_(&mut [0; 63]), Err(Misuse::BadLength));
    assert_eq!(disk.next(&mut [0; SECTOR]), Ok(Call::Flush));
    assert_eq!(disk.done(true, &[]), Ok(()));
    let (sector, count) = (0, 1);
    let asked = Call::Read { sector, count };
    assert_eq!(disk.next(&mut [0; SECTOR]), Ok(asked));
    assert_eq!(disk.done(true, &[0; SECTOR]), Ok(()));
    let mut device = Memory::with_image(1);
    device.bytes[0] ^= 1;
    let bad: Error<()> = Fault::BadSuper.into();
    let carried = disk.carry_out(&mut device, &mut [0; SECTOR]);
    assert_eq!(carried, Err(bad));
    assert_eq!(disk.state(), State::Failed(Fault::BadSuper));
    assert_eq!(disk.next(&mut [0; SECTOR]), Ok(Call::Nothing));
    let text = Fault::BadSuper.to_string();
    assert_eq!(text, "no image: sector 0 is no super");
    let text = Misuse::NotAsked.to_string();
    assert_eq!(text, "no call of the device is under way");
}

#[test]
fn a_store_is_busy_until_its_device_has_done_what_it_takes() {
    let (mut device, mut buffer) = (Memory::with_image(2), vec![0; BUFFER]);
    let mut store = Store::start(SECTORS).unwrap();
    assert_eq!(store.sizes(), Err(Refusal::Busy));
    assert_eq!(store.carry_out(&mut device, &mut buffer), Ok(true));
    assert_eq!(store.state(), State::Serving);
    assert_eq!(store.sizes(), Ok((BLOCKS, Log::limit_of(2))));
    let mut found = [0; SECTOR];
    assert_eq!(store.read(7, &mut found), Err(Refusal::Busy));
    assert_eq!(store.carry_out(&mut device, &mut buffer), Ok(true));
    assert_eq!(store.read(7, &mut found), Ok(()));
    assert_eq!(store.write(7, &[0x5A; SECTOR]), Ok(()));
    assert_eq!(store.sync(), Err(Refusal::Busy));
    while store.sync() == Err(Refusal::Busy) {
        assert_eq!(store.carry_out(&mut device, &mut buffer), Ok(true));
    }
    assert_eq!(store.sync(), Ok(()));
    while store.read(7, &mut found) == Err(Refusal::Busy) {
        assert_eq!(store.carry_out(&mut device, &mut buffer), Ok(true));
    }
    assert_eq!(found, [0x5A; SECTOR]);
}

#[test]
fn the_work_on_an_image_is_done_by_its_last_call() {
    let (mut device, sectors) = (Memory::with_image(2), SECTORS);
    let (format, slots, blocks) = (1, SLOTS, BLOCKS);
    let plan = Plan {
        sectors,
        format,
        slots,
        blocks,
        home: 0,
    };
    let mut image = Image::format(&plan).unwrap();
    assert_eq!(image.state(), State::Starting);
    let buffer = &mut [0; 7 * SECTOR];
    assert_eq!(image.carry_out(&mut device, buffer), Ok(true));
    assert_eq!(image.state(), State::Done);
    assert_eq!(image.carry_out(&mut device, buffer), Ok(false));
    assert_eq!(device.bytes, device.durable);
}

#[test]
fn blocks_begin_at_a_page_of_the_device() {
    let mut device = Memory::with_image(1);
    let plan = Plan {
        sectors: SECTORS,
        format: 2,
        slots: 4,
        blocks: BLOCKS,
        home: 1024,
    };
    let mut image = Image::lay_log(&plan).unwrap();
    image.carry_out(&mut device, &mut [0; SECTOR]).unwrap();
    let mut sector = [0; SECTOR];
    device.read(0, &mut sector).unwrap();
    assert_eq!(look(&sector).map(|it| it.home), Ok(1024));
    for home in [997, 1247] {
        let elsewhere = Plan { home, ..plan };
        let refused = Image::format(&elsewhere).err();
        assert_eq!(refused, Some(Refusal::Misuse(Misuse::BadSizes)));
    }
}

#[test]
fn a_read_that_has_no_room_counts_as_refused() {
    let (mut device, buffer) = (Memory::with_image(2), &mut [0; SECTOR]);
    let mut store = Store::start(SECTORS).unwrap();
    assert_eq!(store.carry_out(&mut device, buffer), Ok(true));
    let found = &mut [0; 2 * SECTOR];
    assert_eq!(store.read(7, found), Err(Refusal::Busy));
    let bad = Err(Misuse::BadLength.into());
    assert_eq!(store.carry_out(&mut device, buffer), bad);
    assert_eq!(store.read(7, found), Err(Fault::ReadRefused.into()));
    assert_eq!(store.state(), State::Serving);
}

#[test]
fn a_disk_may_go_to_another_thread() {
    let mut device = Memory::with_image(1);
    let mut bench = Bench::new(&mut device, 0);
    std::thread::scope(|scope| {
        scope.spawn(move || bench.catch_up());
    });
    assert!(!is_there(&mut device));
}
