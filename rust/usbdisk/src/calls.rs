//! The calls of the device, as a disk, a store and the work on an image tell them.
use crate::{sys, Device, Error, Fault, Misuse, SECTOR};

/// A handle of the library, which is let go with it.
#[derive(Debug)]
pub struct Handle(pub sys::usbdisk);

impl Handle {
    pub const NONE: Self = Handle(sys::usbdisk::NONE);
}

impl Drop for Handle {
    fn drop(&mut self) {
        // SAFETY: the handle is lent to this call alone, and is not used behind it.
        unsafe { sys::usbdisk_stop(&mut self.0) };
    }
}

/// What only this crate can make, so that no safe code elsewhere reaches a handle and copies it.
pub struct Key(());

pub const KEY: Key = Key(());

/// What has a handle of the library.
pub trait Holds {
    fn handle(&mut self, key: Key) -> &mut sys::usbdisk;
}

macro_rules! holds {
    ($name:ident) => {
        impl Holds for $name {
            fn handle(&mut self, _key: $crate::calls::Key) -> &mut sys::usbdisk {
                &mut self.0 .0
            }
        }

        impl Calls for $name {}
    };
}
pub(crate) use holds;

/// What the device is to do. The sectors are `count`, at least 1, from `sector` on.
#[derive(Debug, Clone, Copy, PartialEq, Eq)]
pub enum Call {
    /// Nothing now; or a call is under way.
    Nothing,
    /// These sectors are to be read, into any place: until it serves at most as many as the buffer has
    /// room for, then at most 240, and in format 1 at most 48.
    Read {
        /// The first of them.
        sector: u64,
        /// How many there are.
        count: usize,
    },
    /// These sectors are to be written. Their bytes lie in the buffer, one behind the other.
    Write {
        /// The first of them.
        sector: u64,
        /// How many there are.
        count: usize,
    },
    /// All writes that were told done are to be made durable.
    Flush,
}

/// What a disk, a store or the work on an image is at.
#[derive(Debug, Clone, Copy, PartialEq, Eq)]
pub enum State {
    /// The device has not carried out all that the start, or the work, takes.
    Starting,
    /// A disk or a store serves.
    Serving,
    /// The device refused a write or a flush of a disk or a store: it is asked for nothing until the
    /// next start.
    Faulted,
    /// The work on an image is done.
    Done,
    /// There is no disk, no store or no image.
    Failed(Fault),
}

/// What a [`Disk`](crate::Disk), a [`Store`](crate::Store) and the work on an
/// [`Image`](crate::Image) share: they tell their calls of the device, one at a time. The program has
/// the device carry it out, by DMA, in a thread or at once.
///
/// Only types of this crate are `Calls`, and none lends its handle:
///
/// ```compile_fail
/// fn reach<C: usbdisk::Calls>(calls: &mut C) -> &mut usbdisk::sys::usbdisk {
///     calls.handle()
/// }
/// ```
pub trait Calls: Holds {
    /// The next call of the device, which is under way from then on, until [`Calls::done`]. Of a write
    /// the bytes are in the buffer, as many sectors as wait in a row and as it has room for: they are
    /// the device's until then. [`crate::BUFFER`] bytes are enough for each run and each read. Where
    /// nothing else is to be done a disk also tells writes that bring blocks home, and no flush.
    ///
    /// [`Misuse::BadLength`]: the buffer has no whole sectors, or none.
    fn next(&mut self, buffer: &mut [u8]) -> Result<Call, Misuse> {
        let mut call = sys::usbdisk_call::default();
        let (bytes, size) = (buffer.as_mut_ptr(), buffer.len());
        // SAFETY: the handle is lent to this call alone, and bytes and size are of one slice.
        Misuse::check(unsafe { sys::usbdisk_next(self.handle(KEY), &mut call, bytes, size) })?;
        let (sector, count) = (call.sector, call.count as usize);
        Ok(match call.kind {
            1 => Call::Write { sector, count },
            2 => Call::Flush,
            3 => Call::Read { sector, count },
            _ => Call::Nothing,
        })
    }

    /// The call that is under way has ended: the device carried it out, or refused it. Of a read that
    /// it carried out `bytes` are what it gave; of others they are not looked at.
    ///
    /// A read that was refused behind the start ends one READ of the host, and the disk goes on. A write
    /// or a flush that was refused faults a disk or a store: no promise is told that was not told
    /// before. Whatever else is refused, it has failed.
    ///
    /// [`Misuse::NotAsked`]: no call is under way. [`Misuse::BadLength`]: they are not the bytes of as
    /// many sectors as were asked for, and the call is still under way.
    fn done(&mut self, is_carried_out: bool, bytes: &[u8]) -> Result<(), Misuse> {
        let (from, size) = (bytes.as_ptr(), bytes.len());
        // SAFETY: the handle is lent to this call alone, and bytes and size are of one slice.
        Misuse::check(unsafe { sys::usbdisk_done(self.handle(KEY), is_carried_out, from, size) })
    }

    /// What it is at.
    fn state(&mut self) -> State {
        let mut fault = 0;
        // SAFETY: the handle is lent to this call alone.
        match unsafe { sys::usbdisk_state(self.handle(KEY), &mut fault) } {
            0 => State::Starting,
            1 => State::Serving,
            2 => State::Faulted,
            3 => State::Done,
            _ => State::Failed(Fault::told(fault)),
        }
    }

    /// Has the device carry out all that waits, one call behind the other: whether there was one. It ends
    /// with the first one that the device refuses; what is asked for then the next call carries out. A
    /// call in which the device panics counts as refused.
    ///
    /// [`Misuse::BadLength`]: as [`Calls::next`], or a read has no room in the buffer, and counts as
    /// refused. A [`Fault`]: it has failed.
    fn carry_out<D: Device>(
        &mut self,
        device: &mut D,
        buffer: &mut [u8],
    ) -> Result<bool, Error<D::Error>> {
        let mut has_worked = false;
        loop {
            let call = self.next(buffer)?;
            if call == Call::Nothing {
                break;
            }
            let under_way = UnderWay(self);
            let (ended, size) = carry_out(call, device, buffer);
            under_way.done(ended.is_ok(), &buffer[..size])?;
            ended?;
            has_worked = true;
        }
        match self.state() {
            State::Failed(fault) => Err(fault.into()),
            _ => Ok(has_worked),
        }
    }
}

// The call that the device is at. If the device panics, it is dropped with that call still under way.
struct UnderWay<'c, C: Calls + ?Sized>(&'c mut C);

impl<C: Calls + ?Sized> UnderWay<'_, C> {
    fn done(self, is_carried_out: bool, bytes: &[u8]) -> Result<(), Misuse> {
        let ended = self.0.done(is_carried_out, bytes);
        core::mem::forget(self);
        ended
    }
}

impl<C: Calls + ?Sized> Drop for UnderWay<'_, C> {
    fn drop(&mut self) {
        // (a call is under way, and of a refused one no bytes are looked at: there is no misuse)
        let _ended = self.0.done(false, &[]);
    }
}

// How a call of the device ended, and how many bytes it read into the buffer.
fn carry_out<D: Device>(
    call: Call,
    device: &mut D,
    buffer: &mut [u8],
) -> (Result<(), Error<D::Error>>, usize) {
    let (ended, size) = match call {
        Call::Nothing => (Ok(()), 0),
        Call::Flush => (device.flush(), 0),
        Call::Write { sector, count } => (device.write(sector, &buffer[..count * SECTOR]), 0),
        Call::Read { sector, count } => match buffer.get_mut(..count * SECTOR) {
            Some(room) => (device.read(sector, room), count * SECTOR),
            None => return (Err(Misuse::BadLength.into()), 0),
        },
    };
    (ended.map_err(Error::Device), size)
}
