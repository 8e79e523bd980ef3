//! The device side of a USB disk that keeps whole writes when power is lost: a safe wrapper over the
//! proved static library, without dependencies, and without memory of its own.
//!
//! A [`Device`] is three functions over sectors of 512 bytes. An [`Io`] over it takes the transfers of a
//! USB controller; [`Blocks`] takes blocks, from a stack that speaks SCSI itself. Whatever a call writes is
//! on the device when the call is back: persist first, then send.
//!
//! Below them a [`Disk`], a [`Store`] and the work on an [`Image`] tell their calls of the device
//! ([`Calls`]), for one that works by itself while transfers come.
//!
//! The build takes the library from the folder that the environment's `USBDISK_LIB` names. The library
//! asks the program for memory at a start, by `rattle_alloc` and `rattle_dealloc` of `usbdisk.h`: the
//! feature `alloc` gives it the global allocator.
#![no_std]
#![deny(missing_docs)]

mod blocks;
mod calls;
mod disk;
#[cfg(feature = "alloc")]
mod heap;
mod image;
mod io;
mod refusal;
mod store;
#[allow(missing_docs, non_camel_case_types)]
pub mod sys;

pub use blocks::Blocks;
pub use calls::{Call, Calls, State};
pub use disk::{Answer, Disk};
pub use image::{format, format_blank, lay_log, migrate, Image};
pub use io::{Event, Io};
pub use refusal::{Error, Fault, Misuse, Refusal};
pub use store::Store;

/// The version of `usbdisk.h` that this crate is written for.
pub const VERSION: u32 = 0x010F00;

/// Bytes of a sector and of a block.
pub const SECTOR: usize = 512;

/// Bytes of a buffer that suffices for every image: those of the longest transfer of format 2. One of
/// format 1 needs fewer: [`Log::limit`] has the sectors.
pub const BUFFER: usize = Log::limit_of(2) * SECTOR;

/// A device of sectors of 512 bytes. What it has to promise `docs/MAKERS.md` tells.
pub trait Device {
    /// Why it refuses a call.
    type Error;

    /// How many sectors there are.
    fn sectors(&self) -> u64;

    /// Fills the bytes with the sectors from `first` on.
    fn read(&mut self, first: u64, bytes: &mut [u8]) -> Result<(), Self::Error>;

    /// Writes the sectors from `first` on. Until the next flush a loss of power may lose any of them.
    fn write(&mut self, first: u64, bytes: &[u8]) -> Result<(), Self::Error>;

    /// Makes durable all that was written before.
    fn flush(&mut self) -> Result<(), Self::Error>;

    /// How many records of the log an [`Io`] or [`Blocks`] keeps in memory at most, until their blocks
    /// are home: see [`Disk::start_keeping`]. 0 for four.
    fn kept(&self) -> u32 {
        0
    }
}

impl<D: Device + ?Sized> Device for &mut D {
    type Error = D::Error;

    fn sectors(&self) -> u64 {
        (**self).sectors()
    }

    fn read(&mut self, first: u64, bytes: &mut [u8]) -> Result<(), D::Error> {
        (**self).read(first, bytes)
    }

    fn write(&mut self, first: u64, bytes: &[u8]) -> Result<(), D::Error> {
        (**self).write(first, bytes)
    }

    fn flush(&mut self) -> Result<(), D::Error> {
        (**self).flush()
    }

    fn kept(&self) -> u32 {
        (**self).kept()
    }
}

/// Who the disk is, as INQUIRY tells it: printable ASCII, padded with spaces.
#[repr(C)]
#[derive(Debug, Clone, Copy, PartialEq, Eq)]
pub struct Identity {
    /// Who made it.
    pub vendor: [u8; 8],
    /// What it is.
    pub product: [u8; 16],
    /// Its revision.
    pub revision: [u8; 4],
    /// Its serial number, of hexadecimal digits where USB tells it too.
    pub serial: [u8; 12],
}

impl Identity {
    /// These texts, padded with spaces.
    ///
    /// # Panics
    ///
    /// Where one is too long. Of a constant the compiler tells that.
    pub const fn new(vendor: &str, product: &str, revision: &str, serial: &str) -> Self {
        Identity {
            vendor: padded(vendor),
            product: padded(product),
            revision: padded(revision),
            serial: padded(serial),
        }
    }
}

const fn padded<const SIZE: usize>(text: &str) -> [u8; SIZE] {
    let (text, mut bytes, mut at) = (text.as_bytes(), [b' '; SIZE], 0);
    assert!(text.len() <= SIZE, "a text of the identity is too long");
    while at < text.len() {
        bytes[at] = text[at];
        at += 1;
    }
    bytes
}

/// What image begins with a sector 0.
#[repr(C)]
#[derive(Debug, Clone, Copy, Default, PartialEq, Eq)]
pub struct Layout {
    /// 1 or 2.
    pub format: u32,
    /// How many slots the log has, 1 to 64.
    pub slots: u64,
    /// How many blocks a host sees, 1 to 2^31.
    pub blocks: u64,
    /// The sector where the blocks lie, behind the log.
    pub home: u64,
    /// How many sectors the image takes: the device has to have as many.
    pub sectors: u64,
}

/// The log of an image, and where its blocks lie behind it.
#[repr(C)]
#[derive(Debug, Clone, Copy, Default, PartialEq, Eq)]
pub struct Log {
    /// How many blocks a READ or a WRITE has at most.
    pub limit: u64,
    /// How many sectors a slot has; the first slot begins with sector 2.
    pub slot_sectors: u64,
    /// The sector behind the last slot.
    pub end: u64,
    /// The first sector from there on that is a multiple of a page.
    pub home: u64,
}

impl Log {
    /// [`Log::limit`] of this format, for the size of an array.
    pub const fn limit_of(format: u32) -> usize {
        if format == 1 {
            48
        } else {
            240
        }
    }

    /// [`Log::end`] of this format with so many slots, for the size of an array.
    pub const fn end_of(format: u32, slots: u64) -> u64 {
        2 + if format == 1 { 50 } else { 249 } * slots
    }
}

/// What image is made. It takes `home + blocks` sectors; what lies behind them is spared.
#[repr(C)]
#[derive(Debug, Clone, Copy, Default, PartialEq, Eq)]
pub struct Plan {
    /// How many sectors the device has.
    pub sectors: u64,
    /// 1 or 2.
    pub format: u32,
    /// How many slots the log has, 1 to 64.
    pub slots: u64,
    /// How many blocks a host sees, 1 to 2^31.
    pub blocks: u64,
    /// The sector of block 0; 0 for the first behind the log, [`Log::end`]. In format 2 it may be up to
    /// 248 more, so that the blocks begin where a page of the device does: [`Log::home`].
    pub home: u64,
}

/// The version of the library that was linked.
pub fn version() -> u32 {
    // SAFETY: the call takes nothing.
    unsafe { sys::usbdisk_version() }
}

/// How many bytes of memory a disk takes, on an image of this format with so many slots. A store takes
/// 24,576 bytes less in format 1 and 122,880 less in format 2. Neither takes more while it starts. 0
/// where there is no such image.
pub fn memory(format: u32, slots: u64) -> u64 {
    // SAFETY: the call takes numbers alone.
    unsafe { sys::usbdisk_memory(format, slots) }
}

/// The same of a disk that keeps so many records ([`Disk::start_keeping`]).
pub fn memory_kept(format: u32, slots: u64, kept: u32) -> u64 {
    // SAFETY: the call takes numbers alone.
    unsafe { sys::usbdisk_memory_kept(format, slots, kept) }
}

/// How many bytes of memory it takes at most to make an image of this format with so many slots, or to
/// lay its log: the same for every number of them. 0 where there is no such image.
pub fn memory_to_format(format: u32, slots: u64) -> u64 {
    // SAFETY: the call takes numbers alone.
    unsafe { sys::usbdisk_memory_to_format(format, slots) }
}

/// How many bytes of memory it takes at most to migrate an image of format 1 with so many slots. 0 where
/// there is no such image.
pub fn memory_to_migrate(slots: u64) -> u64 {
    // SAFETY: the call takes numbers alone.
    unsafe { sys::usbdisk_memory_to_migrate(slots) }
}

/// What image begins with these bytes of sector 0: [`Fault::BadSuper`], [`Fault::BadVersion`] or
/// [`Fault::BadSize`] where none does, as a start tells it.
pub fn look(sector: &[u8; SECTOR]) -> Result<Layout, Refusal> {
    let mut layout = Layout::default();
    // SAFETY: both are lent for the call.
    Refusal::check(unsafe { sys::usbdisk_look(sector.as_ptr(), &mut layout) })?;
    Ok(layout)
}

/// The log of an image of this format with so many slots, and the first home sector where blocks have to
/// begin at a multiple of `page` sectors. With page 1 it is the end of the log.
/// [`Misuse::BadSizes`]: there is no such image.
pub fn log_of(format: u32, slots: u64, page: u64) -> Result<Log, Refusal> {
    let mut log = Log::default();
    // SAFETY: the log is lent for the call.
    Refusal::check(unsafe { sys::usbdisk_log_of(format, slots, page, &mut log) })?;
    Ok(log)
}
