//! Why something is not done.
use core::fmt;

macro_rules! numbers {
    ($(#[$doc:meta])* $name:ident { $($(#[$told:meta])* $kind:ident = $number:literal, $text:literal;)* }) => {
        $(#[$doc])*
        #[derive(Debug, Clone, Copy, PartialEq, Eq)]
        pub enum $name {
            $($(#[$told])* $kind = $number,)*
        }

        impl $name {
            pub(crate) fn of(code: u32) -> Option<Self> {
                match code {
                    $($number => Some($name::$kind),)*
                    _ => None,
                }
            }
        }

        impl fmt::Display for $name {
            fn fmt(&self, f: &mut fmt::Formatter<'_>) -> fmt::Result {
                f.write_str(match self {
                    $($name::$kind => $text,)*
                })
            }
        }
    };
}

numbers! {
    /// Why there is no disk, no store or no image on the device, with the number of `usbdisk.h`.
    Fault {
        /// There is no memory.
        NoMemory = 1, "no memory";
        /// The device refused a read.
        ReadRefused = 2, "the device refused a read";
        /// The device refused a write.
        WriteRefused = 3, "the device refused a write";
        /// The device refused a flush.
        FlushRefused = 4, "the device refused a flush";
        /// Sector 0 is no super: no image, or a format that was cut off.
        BadSuper = 5, "no image: sector 0 is no super";
        /// An image of a later version.
        BadVersion = 6, "an image of a later version";
        /// Bad sizes in sector 0, or the device is too short for them.
        BadSize = 7, "the sizes in sector 0 do not fit the device";
        /// Sector 1 is no head.
        BadHead = 8, "sector 1 is no head";
        /// The image's stamps are used up, which no disk reaches by use.
        StampsUsedUp = 9, "the image's stamps are used up";
        /// Of a migration alone: fewer than 5 slots.
        LogTooSmall = 10, "the log is too small for format 2";
        /// Of a store: it neither reads nor writes until the next start.
        Dead = 11, "dead until the next start";
    }
}

numbers! {
    /// What is wrong with a call, which changed nothing, with the number of `usbdisk.h`. Those that the
    /// types of this crate exclude are not here.
    Misuse {
        /// A character of the identity is not printable ASCII.
        BadIdentity = 19, "the identity is not printable ASCII";
        /// A packet size that is neither 64 nor 512.
        BadPacketSize = 20, "the packet size is neither 64 nor 512";
        /// Bytes of no sectors or blocks, or a part of one, or too few, or more than there may be.
        BadLength = 21, "bytes of no whole sectors, too few, or too many";
        /// Sizes out of their limits, or the device is too short for them.
        BadSizes = 22, "sizes out of their limits, or of the device";
        /// A block behind the last one.
        BadRange = 24, "a block behind the last one";
        /// No call of the device is under way.
        NotAsked = 26, "no call of the device is under way";
    }
}

/// Why the library did nothing.
#[derive(Debug, Clone, Copy, PartialEq, Eq)]
pub enum Refusal {
    /// Of a store: the device has to carry out what waits, and then the same call is to be made again.
    Busy,
    /// There is no disk, no store or no image.
    Fault(Fault),
    /// The call is wrong.
    Misuse(Misuse),
}

const BUSY: u32 = 12;

impl Refusal {
    // A call that succeeds answers 0.
    pub(crate) fn check(code: u32) -> Result<(), Refusal> {
        match code {
            0 => Ok(()),
            BUSY => Err(Refusal::Busy),
            code => Err(Fault::of(code).map_or_else(|| Misuse::told(code).into(), Refusal::Fault)),
        }
    }
}

impl Fault {
    pub(crate) fn told(code: u32) -> Fault {
        Fault::of(code).unwrap_or_else(|| unreachable!("a fault that usbdisk.h does not have"))
    }
}

impl Misuse {
    // Of a call that answers 0 or what is wrong with it.
    pub(crate) fn check(code: u32) -> Result<(), Misuse> {
        if code == 0 {
            return Ok(());
        }
        Err(Misuse::told(code))
    }

    fn told(code: u32) -> Misuse {
        Misuse::of(code).unwrap_or_else(|| unreachable!("a number that this call does not answer"))
    }
}

impl From<Fault> for Refusal {
    fn from(fault: Fault) -> Self {
        Refusal::Fault(fault)
    }
}

impl From<Misuse> for Refusal {
    fn from(misuse: Misuse) -> Self {
        Refusal::Misuse(misuse)
    }
}

impl fmt::Display for Refusal {
    fn fmt(&self, f: &mut fmt::Formatter<'_>) -> fmt::Result {
        match self {
            Refusal::Busy => f.write_str("the device has to carry out what waits"),
            Refusal::Fault(fault) => fault.fmt(f),
            Refusal::Misuse(misuse) => misuse.fmt(f),
        }
    }
}

/// Why a call that has the device carry out something failed.
#[derive(Debug, Clone, Copy, PartialEq, Eq)]
pub enum Error<E> {
    /// The library did nothing.
    Refused(Refusal),
    /// The device refused a call. Where it was a write or a flush, no block is served until the next
    /// start.
    Device(E),
}

impl<E, R: Into<Refusal>> From<R> for Error<E> {
    fn from(refusal: R) -> Self {
        Error::Refused(refusal.into())
    }
}

impl<E: fmt::Display> fmt::Display for Error<E> {
    fn fmt(&self, f: &mut fmt::Formatter<'_>) -> fmt::Result {
        match self {
            Error::Refused(refusal) => refusal.fmt(f),
            Error::Device(error) => error.fmt(f),
        }
    }
}

#[cfg(test)]
mod tests {
    extern crate std;
    use super::{Fault, Misuse};
    use std::{collections::BTreeMap, format, string::String, vec::Vec};

    const HEADER: &str = include_str!("../../../include/usbdisk.h");

    // The numbers of an enumeration of the header, by the names that Rust has for them.
    fn numbers(name: &str) -> BTreeMap<u32, String> {
        let from = HEADER.find(&format!("enum {name} {{")).unwrap();
        let rows = HEADER[from..].split('}').next().unwrap().lines();
        let pairs = rows.filter_map(|row| row.trim().strip_prefix("USBDISK_")?.split_once(" = "));
        let number = |told: &str| told.split([',', ' ']).next().unwrap().parse().unwrap();
        pairs.map(|(it, told)| (number(told), camel(it))).collect()
    }

    fn camel(name: &str) -> String {
        let words = name.split('_').map(|word| word.split_at(1));
        let words: Vec<_> = words
            .map(|(head, rest)| format!("{head}{}", rest.to_lowercase()))
            .collect();
        words.concat()
    }

    #[test]
    fn each_number_is_that_of_the_header() {
        let found = (0..64).filter_map(|it| Some((it, format!("{:?}", Fault::of(it)?))));
        assert_eq!(found.collect::<BTreeMap<_, _>>(), numbers("usbdisk_fault"));
        let found = (0..64).filter_map(|it| Some((it, format!("{:?}", Misuse::of(it)?))));
        let mut told = numbers("usbdisk_error");
        told.retain(|_, it| !["Empty", "Started", "OtherKind"].contains(&it.as_str()));
        assert_eq!(found.collect::<BTreeMap<_, _>>(), told);
    }
}
