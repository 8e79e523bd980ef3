//! The disk over a device that is called at once.
use crate::{log_of, look, Answer, Calls, Device, Disk, Error, Identity, Layout, Misuse};
use crate::{State, SECTOR};

/// What the bus brought, for [`Io::play`].
#[derive(Debug, PartialEq, Eq)]
pub enum Event<'p> {
    /// These bytes came to Bulk-Out.
    Out(&'p [u8]),
    /// The host waits at Bulk-In for as many bytes as there is room.
    In(&'p mut [u8]),
    /// A request came for the mass storage interface or one of its endpoints, which may be answered by
    /// two bytes.
    Setup(&'p [u8; 8], &'p mut [u8; 2]),
    /// A bus reset.
    Reset,
    /// Nothing came for a while.
    Idle,
}

/// A disk over a device that is called at once, which it owns. What a call writes is on the device when
/// the call is back.
///
/// A device that refuses a write or a flush is not asked for another one: the host hears of each promise
/// that cannot be kept, and no block is served until the next start. [`Io::error`] tells why.
#[derive(Debug)]
pub struct Io<'b, D: Device> {
    disk: Disk,
    device: D,
    buffer: &'b mut [u8],
    layout: Layout,
    error: Option<D::Error>,
}

impl<'b, D: Device> Io<'b, D> {
    /// Starts a disk on what the device holds, recovers it, and has the device carry that out.
    ///
    /// `buffer` has room for the longest transfer, 48 sectors in format 1 and 240 in format 2
    /// ([`crate::BUFFER`]); [`Misuse::BadLength`] where it has not. `packet` is 64 at full speed, 512 at
    /// high speed.
    pub fn start(
        mut device: D,
        buffer: &'b mut [u8],
        identity: &Identity,
        packet: u32,
    ) -> Result<Self, Error<D::Error>> {
        let (layout, buffer) = fitted(&mut device, buffer)?;
        let (sectors, kept) = (device.sectors(), device.kept());
        let mut disk = Disk::start_keeping(sectors, identity, packet, kept)?;
        disk.carry_out(&mut device, buffer)?;
        Ok(Io {
            disk,
            device,
            buffer,
            layout,
            error: None,
        })
    }

    /// Plays an event by the call of its kind, with that call's answer, and how many bytes were taken or
    /// go to the host; of a bus reset [`Answer::Ack`], of idle [`Answer::Ack`] while more is left, and
    /// [`Answer::Nak`] where not.
    pub fn play(&mut self, event: Event<'_>) -> Result<(Answer, usize), Misuse> {
        Ok(match event {
            Event::Out(bytes) => self.out(bytes),
            Event::In(room) => self.in_(room)?,
            Event::Setup(request, data) => self.setup(request, data),
            Event::Reset => {
                self.bus_reset();
                (Answer::Ack, 0)
            }
            Event::Idle if self.idle() => (Answer::Ack, 0),
            Event::Idle => (Answer::Nak, 0),
        })
    }

    /// Bytes came to Bulk-Out, as [`Disk::out`] takes them. A READ of sectors that the device cannot read
    /// ends alone, with a check condition.
    ///
    /// [`Answer::Nak`]: the host has not taken the status of the command before. Hand the rest in again
    /// behind it.
    pub fn out(&mut self, bytes: &[u8]) -> (Answer, usize) {
        let mut taken = 0;
        loop {
            let (answer, size) = self.disk.out(&bytes[taken..]);
            taken += size;
            if !self.persist() || answer != Answer::Nak {
                return (answer, taken);
            }
        }
    }

    /// The host asks Bulk-In for packets, as [`Disk::in_`] gives them. It makes no call of the device.
    pub fn in_(&mut self, room: &mut [u8]) -> Result<(Answer, usize), Misuse> {
        self.disk.in_(room)
    }

    /// A request came, as [`Disk::setup`] answers it. It makes no call of the device.
    pub fn setup(&mut self, request: &[u8; 8], data: &mut [u8; 2]) -> (Answer, usize) {
        self.disk.setup(request, data)
    }

    /// A bus reset, which does what a host's reset recovery does: class reset, both halts cleared.
    pub fn bus_reset(&mut self) {
        self.disk.bus_reset();
    }

    /// Steps in the background, for when the bus is idle: whether more are left. False: all is durable
    /// and at home, or the disk has faulted.
    pub fn idle(&mut self) -> bool {
        let is_left = self.disk.idle();
        self.persist();
        is_left && self.disk.state() == State::Serving
    }

    /// Stops the disk. It writes nothing: what was neither promised nor brought home by [`Io::idle`] is
    /// lost as by a cut.
    pub fn stop(self) -> D {
        self.device
    }

    /// The device under the disk.
    pub fn device(&self) -> &D {
        &self.device
    }

    /// What image the disk stands on.
    pub fn layout(&self) -> &Layout {
        &self.layout
    }

    /// Why the device refused a write or a flush. None: it refused none.
    pub fn error(&self) -> Option<&D::Error> {
        self.error.as_ref()
    }

    // Has the device carry out all that waits: whether there was a call. Behind a read that was refused
    // the disk goes on.
    fn persist(&mut self) -> bool {
        let mut has_worked = false;
        loop {
            match self.disk.carry_out(&mut self.device, self.buffer) {
                Ok(worked) => return worked || has_worked,
                Err(Error::Refused(_)) => return has_worked,
                Err(Error::Device(error)) if self.disk.state() == State::Faulted => {
                    self.error = Some(error);
                }
                Err(Error::Device(_)) => {}
            }
            has_worked = true;
        }
    }
}

/// What image the device holds, and as much of the buffer as its longest read takes.
pub fn fitted<'b, D: Device>(
    device: &mut D,
    buffer: &'b mut [u8],
) -> Result<(Layout, &'b mut [u8]), Error<D::Error>> {
    let mut sector = [0; SECTOR];
    device.read(0, &mut sector).map_err(Error::Device)?;
    let layout = look(&sector)?;
    let log = log_of(layout.format, layout.slots, 1)?;
    match buffer.get_mut(..log.limit as usize * SECTOR) {
        Some(buffer) => Ok((layout, buffer)),
        None => Err(Misuse::BadLength.into()),
    }
}
