//! The store without the transport, by blocks.
use crate::calls::{holds, Calls, Handle, Holds, KEY};
use crate::{sys, Identity, Refusal};

/// A store: blocks of 512 bytes, for a stack that speaks SCSI itself. It tells its calls of the device
/// ([`Calls`]). For a device that is called at once there is [`Blocks`](crate::Blocks) over it.
///
/// Where a call answers [`Refusal::Busy`], nothing happened that has to be undone: have the device carry
/// out what it is asked for, until that is nothing, and make the same call again.
#[derive(Debug)]
pub struct Store(Handle);

holds!(Store);

impl Store {
    /// Starts a store on a device of so many sectors, as [`Disk::start`](crate::Disk::start) starts a
    /// disk.
    pub fn start(sectors: u64) -> Result<Self, Refusal> {
        Store::start_keeping(sectors, 0)
    }

    /// The same of a store with at most so many records of the log in memory, as
    /// [`Disk::start_keeping`](crate::Disk::start_keeping) has it.
    pub fn start_keeping(sectors: u64, kept: u32) -> Result<Self, Refusal> {
        let mut store = Store(Handle::NONE);
        // (of the options it reads neither identity nor packet)
        let options = sys::usbdisk_options {
            sectors,
            identity: Identity::new("", "", "", ""),
            packet: 0,
            kept,
        };
        // SAFETY: the handle holds nothing, and both are lent for the call.
        Refusal::check(unsafe { sys::usbdisk_store_start(store.handle(KEY), &options) })?;
        Ok(store)
    }

    /// How many blocks there are, and how many of them one read or write may have: 48 in format 1, 240
    /// in format 2.
    pub fn sizes(&mut self) -> Result<(u64, usize), Refusal> {
        let (mut blocks, mut limit) = (0, 0);
        // SAFETY: the handle is lent to this call alone.
        let code = unsafe { sys::usbdisk_store_sizes(self.handle(KEY), &mut blocks, &mut limit) };
        Refusal::check(code).map(|()| (blocks, limit as usize))
    }

    /// Reads whole blocks from `block` on, as they are after all accepted writes.
    pub fn read(&mut self, block: u64, bytes: &mut [u8]) -> Result<(), Refusal> {
        let (to, size) = (bytes.as_mut_ptr(), bytes.len());
        // SAFETY: the handle is lent to this call alone; pointer and size are of one slice.
        Refusal::check(unsafe { sys::usbdisk_store_read(self.handle(KEY), block, to, size) })
    }

    /// Writes whole blocks from `block` on, by one write, of which a cut leaves all or nothing. The next
    /// good [`Store::sync`] promises it.
    pub fn write(&mut self, block: u64, bytes: &[u8]) -> Result<(), Refusal> {
        let (from, size) = (bytes.as_ptr(), bytes.len());
        // SAFETY: the handle is lent to this call alone; pointer and size are of one slice.
        Refusal::check(unsafe { sys::usbdisk_store_write(self.handle(KEY), block, from, size) })
    }

    /// Makes every accepted write durable.
    pub fn sync(&mut self) -> Result<(), Refusal> {
        // SAFETY: the handle is lent to this call alone.
        Refusal::check(unsafe { sys::usbdisk_store_sync(self.handle(KEY)) })
    }

    /// Steps in the background, for when nothing else is to be done, as [`Disk::idle`](crate::Disk::idle).
    pub fn idle(&mut self) -> bool {
        // SAFETY: the handle is lent to this call alone.
        unsafe { sys::usbdisk_idle(self.handle(KEY)) == 1 }
    }
}
