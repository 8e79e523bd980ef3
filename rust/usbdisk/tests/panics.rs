//! A device that panics in a call leaves no call under way: the store that it was called for goes on to an
//! answer, and never waits for ever.
use std::panic::{catch_unwind, AssertUnwindSafe};
use usbdisk::{format, Blocks, Device, Fault, Refusal, Store, BUFFER, SECTOR};
use usbdisk::{Calls, Error, Log, State};

const SIZE: usize = (Log::end_of(1, 2) as usize + 64) * SECTOR;

struct Memory {
    bytes: Vec<u8>,
    panics: bool,
}

impl Device for Memory {
    type Error = ();

    fn sectors(&self) -> u64 {
        (self.bytes.len() / SECTOR) as u64
    }

    fn read(&mut self, first: u64, bytes: &mut [u8]) -> Result<(), ()> {
        let at = first as usize * SECTOR;
        bytes.copy_from_slice(&self.bytes[at..at + bytes.len()]);
        Ok(())
    }

    fn write(&mut self, first: u64, bytes: &[u8]) -> Result<(), ()> {
        assert!(!self.panics, "the device panics");
        let at = first as usize * SECTOR;
        self.bytes[at..at + bytes.len()].copy_from_slice(bytes);
        Ok(())
    }

    fn flush(&mut self) -> Result<(), ()> {
        Ok(())
    }
}

fn formatted(buffer: &mut [u8]) -> Memory {
    let mut device = Memory {
        bytes: vec![0; SIZE],
        panics: false,
    };
    format(&mut device, buffer, 1, 2, 64).unwrap();
    device
}

#[test]
fn a_store_whose_device_panicked_is_dead_and_not_busy() {
    let mut buffer = [0; BUFFER];
    let mut device = formatted(&mut buffer);
    let mut store = Store::start(device.sectors()).unwrap();
    store.carry_out(&mut device, &mut buffer).unwrap();
    store.write(0, &[1; SECTOR]).unwrap();
    assert_eq!(store.sync(), Err(Refusal::Busy));
    device.panics = true;
    let carried = catch_unwind(AssertUnwindSafe(|| {
        store.carry_out(&mut device, &mut buffer).is_ok()
    }));
    assert!(carried.is_err());
    assert_eq!(store.state(), State::Faulted);
    assert_eq!(store.sync(), Err(Refusal::Fault(Fault::Dead)));
}

/// A device that is lent, and told by whoever lends it when it panics.
struct Lent<'d>(&'d std::cell::RefCell<Memory>);

impl Device for Lent<'_> {
    type Error = ();

    fn sectors(&self) -> u64 {
        self.0.borrow().sectors()
    }

    fn read(&mut self, first: u64, bytes: &mut [u8]) -> Result<(), ()> {
        self.0.borrow_mut().read(first, bytes)
    }

    fn write(&mut self, first: u64, bytes: &[u8]) -> Result<(), ()> {
        self.0.borrow_mut().write(first, bytes)
    }

    fn flush(&mut self) -> Result<(), ()> {
        self.0.borrow_mut().flush()
    }
}

#[test]
fn blocks_whose_device_panicked_answer_the_next_call() {
    let mut buffer = [0; BUFFER];
    let device = std::cell::RefCell::new(formatted(&mut buffer));
    let mut blocks = Blocks::start(Lent(&device), &mut buffer).unwrap();
    blocks.write(0, &[1; SECTOR]).unwrap();
    device.borrow_mut().panics = true;
    assert!(catch_unwind(AssertUnwindSafe(|| blocks.sync().is_ok())).is_err());
    device.borrow_mut().panics = false;
    let dead = Err(Error::Refused(Refusal::Fault(Fault::Dead)));
    assert_eq!(blocks.write(0, &[2; SECTOR]), dead);
    assert_eq!(blocks.sync(), dead);
}
