//! What the tests of a disk and of a drive share.

/// A command wrapper (Bulk-Only Transport 1.0, 5.1): so many bytes are to move, to the host with flags 80h.
pub fn wrapper(length: u16, flags: u8, command: &[u8]) -> [u8; 31] {
    let mut bytes = [0; 31];
    bytes[..4].copy_from_slice(b"USBC");
    bytes[8..10].copy_from_slice(&length.to_le_bytes());
    bytes[12] = flags;
    bytes[14] = command.len() as u8;
    bytes[15..15 + command.len()].copy_from_slice(command);
    bytes
}

/// Refuses each call of the device in turn, in lives on both formats, until one has fewer calls. A life tells whether its call
/// came.
pub fn refuse_each_call(live: impl Fn(u32, u32) -> bool) {
    for log in 1..=2 {
        let lives = (1..).take_while(|refused| live(log, *refused)).count();
        assert!(lives > 4, "{lives}");
    }
}
