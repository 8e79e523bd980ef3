//! The disk, by the transfers of a controller.
use crate::calls::{holds, Calls, Handle, Holds, KEY};
use crate::{sys, Identity, Misuse, Refusal};

/// What an endpoint is to answer.
#[derive(Debug, Clone, Copy, PartialEq, Eq)]
pub enum Answer {
    /// Taken, or here are bytes.
    Ack,
    /// Nothing now: the host tries again.
    Nak,
    /// The endpoint is halted, or the request is refused.
    Stall,
}

impl Answer {
    // The answer with this number; what is none is told by name.
    fn of(code: u32) -> Result<Answer, Misuse> {
        match code {
            0 => Ok(Answer::Ack),
            1 => Ok(Answer::Nak),
            2 => Ok(Answer::Stall),
            code => Misuse::check(code).map(|()| Answer::Ack),
        }
    }
}

/// A disk. It tells its calls of the device ([`Calls`]), and takes transfers and requests meanwhile.
/// For a device that is called at once there is [`Io`](crate::Io) over it.
///
/// It stops where it is dropped, and writes nothing then: what was not synchronised is lost as by a cut.
#[derive(Debug)]
pub struct Disk(Handle);

holds!(Disk);

impl Disk {
    /// Starts a disk on a device of so many sectors, on what it holds. `packet` is 64 at full speed, 512
    /// at high speed. It keeps four records: see [`Disk::start_keeping`].
    ///
    /// It is [`State::Starting`](crate::State) until the device has carried out its recovery.
    ///
    /// [`Misuse::BadPacketSize`], [`Misuse::BadIdentity`], or [`Fault::NoMemory`](crate::Fault).
    pub fn start(sectors: u64, identity: &Identity, packet: u32) -> Result<Self, Refusal> {
        Disk::start_keeping(sectors, identity, packet, 0)
    }

    /// The same of a disk with at most so many records of the log in memory, until their blocks are home;
    /// 0 for four. More than 64 counts as 64, and more than there are slots as many as there are slots.
    /// One more takes 128,720 bytes in format 2 and 26,952 in format 1. In format 2 a disk that keeps
    /// three or more makes one flush for each forced WRITE, for ever; one that keeps fewer makes three.
    ///
    /// Those of [`Disk::start`].
    pub fn start_keeping(
        sectors: u64,
        identity: &Identity,
        packet: u32,
        kept: u32,
    ) -> Result<Self, Refusal> {
        let mut disk = Disk(Handle::NONE);
        let identity = *identity;
        let options = sys::usbdisk_options {
            sectors,
            identity,
            packet,
            kept,
        };
        // SAFETY: the handle holds nothing, and both are lent for the call.
        Refusal::check(unsafe { sys::usbdisk_start(disk.handle(KEY), &options) })?;
        Ok(disk)
    }

    /// Bytes came to Bulk-Out: a transfer of the host, or a part of one that ends where a packet does;
    /// no bytes are one empty packet. The answer, and how many of them were taken.
    ///
    /// [`Answer::Nak`]: a command is pending, or the status before was not taken. Nothing happened to the
    /// packet behind those. Hand it in again behind the next
    /// [`Calls::done`], [`Disk::idle`] or status; where a bus reset comes first, let go of it.
    pub fn out(&mut self, bytes: &[u8]) -> (Answer, usize) {
        let (mut taken, from, size) = (0, bytes.as_ptr(), bytes.len());
        // SAFETY: the handle is lent to this call alone, and bytes and size are of one slice.
        let code = unsafe { sys::usbdisk_out(self.handle(KEY), from, size, &mut taken) };
        (Answer::of(code).unwrap_or(Answer::Stall), taken)
    }

    /// The host asks Bulk-In for packets. They lie in the room one behind the other: until one is shorter
    /// than a packet may be, or a further one has no room, or there is none now. The answer, and how many
    /// bytes they have.
    ///
    /// [`Answer::Nak`]: there is none now, or a command is pending.
    /// [`Misuse::BadLength`]: there is no room for a packet.
    pub fn in_(&mut self, room: &mut [u8]) -> Result<(Answer, usize), Misuse> {
        let (mut given, to, size) = (0, room.as_mut_ptr(), room.len());
        // SAFETY: the handle is lent to this call alone, and room and size are of one slice.
        let code = unsafe { sys::usbdisk_in(self.handle(KEY), to, size, &mut given) };
        Ok((Answer::of(code)?, given))
    }

    /// A request came for the mass storage interface or one of its endpoints (0, 81h and 02h): its setup
    /// packet. The answer, and how many bytes of `data` go to the host.
    ///
    /// It is answered whatever the device is at, but by [`Answer::Stall`] until it is recovered:
    /// connect to the bus when the disk serves.
    pub fn setup(&mut self, request: &[u8; 8], data: &mut [u8; 2]) -> (Answer, usize) {
        let (mut size, from, to) = (0, request.as_ptr(), data.as_mut_ptr());
        // SAFETY: the handle is lent to this call alone, 8 bytes, and 2.
        let code = unsafe { sys::usbdisk_setup(self.handle(KEY), from, to, &mut size) };
        (Answer::of(code).unwrap_or(Answer::Stall), size as usize)
    }

    /// A bus reset, which does what a host's reset recovery does: class reset, both halts cleared. The
    /// call that is under way goes on.
    pub fn bus_reset(&mut self) {
        let data = &mut [0; 2];
        self.setup(&[0x21, 0xFF, 0, 0, 0, 0, 0, 0], data);
        self.setup(&[0x02, 1, 0, 0, 0x81, 0, 0, 0], data);
        self.setup(&[0x02, 1, 0, 0, 0x02, 0, 0, 0], data);
    }

    /// Steps in the background, for when the bus is idle: whether more are left. False: every accepted
    /// write is durable and at home once the device has carried out what waits. While it is recovered, and
    /// of a disk that failed or faulted, it stays true.
    pub fn idle(&mut self) -> bool {
        // SAFETY: the handle is lent to this call alone.
        unsafe { sys::usbdisk_idle(self.handle(KEY)) == 1 }
    }

    /// The device is to read `count` sectors from sector `first` on before a READ of the host lacks them,
    /// for when the bus rests, or while the host takes the bytes of a READ: whether they will be read.
    /// False, and nothing changes: the disk does not serve; there are not as many, or more than a READ
    /// may have (48 in format 1, 240 in format 2); the device is at a call, or calls wait for it; or since
    /// the last packet that was taken sectors were read, or are to be.
    pub fn ahead(&mut self, first: u64, count: u32) -> bool {
        // SAFETY: the handle is lent to this call alone.
        unsafe { sys::usbdisk_ahead(self.handle(KEY), first, count) == 1 }
    }
}
