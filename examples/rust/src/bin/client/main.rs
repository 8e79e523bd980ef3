//! The least that there is to write: your device as four functions, an image where it is blank, and
//! what the bus brings. Here the device is a file, and `bus` stands for your controller.
mod bus;

use std::{env, fs::File, io, os::unix::fs::FileExt};
use usbdisk::{format_blank, Device, Error, Identity, Io, BUFFER};

const WHO: Identity = Identity::new("EXAMPLE", "FILE", "0001", "000000000001");

struct Flash(File);

impl Device for Flash {
    type Error = io::Error;

    fn sectors(&self) -> u64 {
        self.0.metadata().map_or(0, |it| it.len() / 512)
    }

    fn read(&mut self, first: u64, bytes: &mut [u8]) -> io::Result<()> {
        self.0.read_exact_at(bytes, first * 512)
    }

    fn write(&mut self, first: u64, bytes: &[u8]) -> io::Result<()> {
        self.0.write_all_at(bytes, first * 512)
    }

    fn flush(&mut self) -> io::Result<()> {
        self.0.sync_data()
    }
}

fn main() -> Result<(), Error<io::Error>> {
    let name = env::args_os().nth(1).unwrap_or_default();
    let file = File::options().read(true).write(true).open(name);
    let mut flash = Flash(file.map_err(Error::Device)?);
    let (mut buffer, mut bus) = ([0; BUFFER], bus::Bus::default());
    format_blank(&mut flash, &mut buffer, 2, 6, 0)?;
    let mut disk = Io::start(flash, &mut buffer, &WHO, 512)?;
    println!("start: good");
    while let Some(event) = bus.next() {
        let moved = disk.play(event)?;
        bus.answer(moved);
    }
    Ok(())
}
