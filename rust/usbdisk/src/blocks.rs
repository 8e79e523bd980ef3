//! The store over a device that is called at once.
use crate::io::fitted;
use crate::{Calls, Device, Error, Misuse, Refusal, State, Store, SECTOR};

/// A store over a device that is called at once, which it owns. What a call writes is on the device when
/// the call is back.
#[derive(Debug)]
pub struct Blocks<'b, D> {
    store: Store,
    device: D,
    buffer: &'b mut [u8],
    blocks: u64,
    limit: usize,
}

impl<'b, D: Device> Blocks<'b, D> {
    /// Starts a store on what the device holds, recovers it, and has the device carry that out.
    ///
    /// `buffer` has room for the longest read, as that of [`Io::start`](crate::Io::start).
    pub fn start(mut device: D, buffer: &'b mut [u8]) -> Result<Self, Error<D::Error>> {
        let (_, buffer) = fitted(&mut device, buffer)?;
        let mut store = Store::start_keeping(device.sectors(), device.kept())?;
        store.carry_out(&mut device, buffer)?;
        let (blocks, limit) = store.sizes()?;
        Ok(Blocks {
            store,
            device,
            buffer,
            blocks,
            limit,
        })
    }

    /// How many blocks there are.
    pub fn blocks(&self) -> u64 {
        self.blocks
    }

    /// How many blocks one write may have: 48 in format 1, 240 in format 2.
    pub fn limit(&self) -> usize {
        self.limit
    }

    /// Reads whole blocks from `block` on, any number of them, as they are after all accepted writes.
    pub fn read(&mut self, block: u64, bytes: &mut [u8]) -> Result<(), Error<D::Error>> {
        if bytes.is_empty() || bytes.len() % SECTOR != 0 {
            return Err(Misuse::BadLength.into());
        }
        let most = self.limit;
        let parts = bytes.chunks_mut(most * SECTOR);
        for (part, at) in parts.zip((block..).step_by(most)) {
            self.until_done(|store| store.read(at, part))?;
        }
        Ok(())
    }

    /// Writes whole blocks from `block` on, by one write, of which a cut leaves all or nothing. The next
    /// good [`Blocks::sync`] promises it.
    pub fn write(&mut self, block: u64, bytes: &[u8]) -> Result<(), Error<D::Error>> {
        self.until_done(|store| store.write(block, bytes))?;
        self.persist()
    }

    /// Makes every accepted write durable.
    pub fn sync(&mut self) -> Result<(), Error<D::Error>> {
        self.until_done(Store::sync)?;
        self.persist()
    }

    /// A step in the background, for when nothing else is to be done: whether more are left. False: all
    /// is durable and at home, or the store is dead.
    pub fn idle(&mut self) -> Result<bool, Error<D::Error>> {
        let is_left = self.store.idle();
        self.persist()?;
        Ok(is_left && self.store.state() == State::Serving)
    }

    /// Stops the store. It writes nothing: what was not synchronised is lost as by a cut.
    pub fn stop(self) -> D {
        self.device
    }

    /// The device under the store.
    pub fn device(&self) -> &D {
        &self.device
    }

    fn persist(&mut self) -> Result<(), Error<D::Error>> {
        let carried = self.store.carry_out(&mut self.device, self.buffer);
        carried.map(|_| ())
    }

    // Makes a call until the device has done what it takes. Where a call of the device is why it fails,
    // that is the error.
    fn until_done(
        &mut self,
        mut call: impl FnMut(&mut Store) -> Result<(), Refusal>,
    ) -> Result<(), Error<D::Error>> {
        let mut refused = None;
        loop {
            match call(&mut self.store) {
                Ok(()) => return Ok(()),
                Err(Refusal::Busy) => refused = self.persist().err().or(refused),
                Err(refusal) => return Err(refused.unwrap_or_else(|| refusal.into())),
            }
        }
    }
}
