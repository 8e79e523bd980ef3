//! Images on a device.
use crate::calls::{holds, Calls, Handle, Holds, KEY};
use crate::{log_of, sys, Device, Error, Plan, Refusal, SECTOR};

/// The work on an image. It tells its calls of the device ([`Calls`]), and the image is there when it is
/// [`State::Done`](crate::State). For a device that is called at once there are [`format`](fn@format),
/// [`lay_log`] and [`migrate`] over it.
#[derive(Debug)]
pub struct Image(Handle);

holds!(Image);

type Making = unsafe extern "C" fn(*mut sys::usbdisk, *const Plan) -> u32;

impl Image {
    /// Makes an image of blocks of zeros. A cut leaves what was there before, no image, or the new one,
    /// whole.
    pub fn format(plan: &Plan) -> Result<Self, Refusal> {
        Image::begin(sys::usbdisk_format, plan)
    }

    /// Makes an image around the blocks that the device holds behind its log, by writing super, head and
    /// log alone. A cut leaves what [`Image::format`] tells.
    pub fn lay_log(plan: &Plan) -> Result<Self, Refusal> {
        Image::begin(sys::usbdisk_lay_log, plan)
    }

    /// Turns an image of format 1, on a device of so many sectors, into one of format 2 with the same
    /// blocks; one of format 2 is recovered. After a cut, make it again.
    pub fn migrate(sectors: u64) -> Result<Self, Refusal> {
        let plan = Plan {
            sectors,
            ..Plan::default()
        };
        Image::begin(sys::usbdisk_migrate, &plan)
    }

    fn begin(making: Making, plan: &Plan) -> Result<Self, Refusal> {
        let mut image = Image(Handle::NONE);
        // SAFETY: the handle holds nothing, and both are lent for the call.
        Refusal::check(unsafe { making(image.handle(KEY), plan) })?;
        Ok(image)
    }
}

impl Plan {
    // On this device; 0 blocks: as many as there is room for behind the log.
    fn on<D: Device>(device: &D, format: u32, slots: u64, blocks: u64) -> Self {
        let sectors = device.sectors();
        // (of sizes that no image has, which are refused, home is not known)
        let home = log_of(format, slots, 1).map_or(0, |log| log.home);
        let most = sectors.saturating_sub(home).min(1 << 31);
        Plan {
            sectors,
            format,
            slots,
            blocks: if blocks == 0 { most } else { blocks },
            home: 0,
        }
    }
}

/// Makes an image of zeros, of format 1 or 2, with so many log slots and blocks; 0 blocks: as many as
/// there is room for. The device writes runs as long as the buffer, which has whole sectors, 1 or more. A
/// cut leaves what was there before, no image, or the new one, whole.
pub fn format<D: Device>(
    device: &mut D,
    buffer: &mut [u8],
    format: u32,
    slots: u64,
    blocks: u64,
) -> Result<(), Error<D::Error>> {
    let mut image = Image::format(&Plan::on(device, format, slots, blocks))?;
    image.carry_out(device, buffer).map(|_| ())
}

/// Makes an image as [`format`](fn@format) does, where the device is blank: each byte of sector 0 is 00h,
/// or each is FFh. What lies behind it is not looked at. A format that was cut off leaves no image and
/// such a sector, or what was there before. Any other device stays as it is, for a start to tell what is
/// on it.
pub fn format_blank<D: Device>(
    device: &mut D,
    buffer: &mut [u8],
    log: u32,
    slots: u64,
    blocks: u64,
) -> Result<(), Error<D::Error>> {
    let mut sector = [0; SECTOR];
    device.read(0, &mut sector).map_err(Error::Device)?;
    if sector != [0x00; SECTOR] && sector != [0xFF; SECTOR] {
        return Ok(());
    }
    format(device, buffer, log, slots, blocks)
}

/// Makes an image around the blocks that the device holds behind its log, by writing the log alone. The
/// numbers and the buffer are those of [`format`](fn@format), and a cut leaves what it tells.
pub fn lay_log<D: Device>(
    device: &mut D,
    buffer: &mut [u8],
    format: u32,
    slots: u64,
    blocks: u64,
) -> Result<(), Error<D::Error>> {
    let mut image = Image::lay_log(&Plan::on(device, format, slots, blocks))?;
    image.carry_out(device, buffer).map(|_| ())
}

/// Turns an image of format 1 into one of format 2 with the same blocks; one of format 2 is recovered.
/// The buffer has whole sectors, 1 or more. After a cut, make it again.
pub fn migrate<D: Device>(device: &mut D, buffer: &mut [u8]) -> Result<(), Error<D::Error>> {
    let mut image = Image::migrate(device.sectors())?;
    image.carry_out(device, buffer).map(|_| ())
}

#[cfg(test)]
mod tests {
    use super::{Device, Plan};

    struct Long(u64);

    impl Device for Long {
        type Error = ();

        fn sectors(&self) -> u64 {
            self.0
        }

        fn read(&mut self, _first: u64, _bytes: &mut [u8]) -> Result<(), ()> {
            Err(())
        }

        fn write(&mut self, _first: u64, _bytes: &[u8]) -> Result<(), ()> {
            Err(())
        }

        fn flush(&mut self) -> Result<(), ()> {
            Err(())
        }
    }

    #[test]
    fn as_many_blocks_as_there_is_room_for() {
        let blocks = |sectors, format, slots| Plan::on(&Long(sectors), format, slots, 0).blocks;
        assert_eq!(blocks(1000, 1, 2), 898);
        assert_eq!(blocks(1000, 2, 2), 500);
        assert_eq!(blocks(1000, 2, 4), 2);
        assert_eq!(blocks(1000, 2, 5), 0);
        assert_eq!(blocks((1 << 31) + 501, 2, 2), 1 << 31);
        assert_eq!(blocks(u64::MAX, 2, 64), 1 << 31);
        assert_eq!(Plan::on(&Long(1000), 2, 2, 7).blocks, 7);
    }
}
