//! The calls of `usbdisk.h`, which tells each of them.
use core::ffi::c_void;

/// `struct usbdisk`
#[repr(C)]
#[derive(Debug)]
pub struct usbdisk {
    at: *mut c_void,
}

impl usbdisk {
    /// A handle that holds nothing.
    pub const NONE: Self = Self {
        at: core::ptr::null_mut(),
    };
}

// SAFETY: nothing of the library belongs to a thread: it has no data of its own, and what a handle
// holds is reached through it alone. So it may go to another thread, though not be shared.
unsafe impl Send for usbdisk {}

/// `struct usbdisk_options`
#[repr(C)]
#[derive(Debug)]
pub struct usbdisk_options {
    pub sectors: u64,
    pub identity: crate::Identity,
    pub packet: u32,
    pub kept: u32,
}

/// `struct usbdisk_call`
#[repr(C)]
#[derive(Debug, Default)]
pub struct usbdisk_call {
    pub kind: u32,
    pub sector: u64,
    pub count: u64,
}

extern "C" {
    pub fn usbdisk_version() -> u32;
    pub fn usbdisk_look(sector: *const u8, layout: *mut crate::Layout) -> u32;
    pub fn usbdisk_log_of(format: u32, slots: u64, page: u64, log: *mut crate::Log) -> u32;
    pub fn usbdisk_memory(format: u32, slots: u64) -> u64;
    pub fn usbdisk_memory_kept(format: u32, slots: u64, kept: u32) -> u64;
    pub fn usbdisk_memory_to_format(format: u32, slots: u64) -> u64;
    pub fn usbdisk_memory_to_migrate(slots: u64) -> u64;

    pub fn usbdisk_start(disk: *mut usbdisk, options: *const usbdisk_options) -> u32;
    pub fn usbdisk_stop(disk: *mut usbdisk) -> u32;
    pub fn usbdisk_next(
        disk: *mut usbdisk,
        call: *mut usbdisk_call,
        buffer: *mut u8,
        size: usize,
    ) -> u32;
    pub fn usbdisk_done(disk: *mut usbdisk, ok: bool, bytes: *const u8, size: usize) -> u32;
    pub fn usbdisk_state(disk: *mut usbdisk, fault: *mut u32) -> u32;
    pub fn usbdisk_out(disk: *mut usbdisk, bytes: *const u8, size: usize, taken: *mut usize)
        -> u32;
    pub fn usbdisk_in(disk: *mut usbdisk, room: *mut u8, size: usize, given: *mut usize) -> u32;
    pub fn usbdisk_setup(
        disk: *mut usbdisk,
        setup: *const u8,
        data: *mut u8,
        size: *mut u32,
    ) -> u32;
    pub fn usbdisk_idle(disk: *mut usbdisk) -> u32;
    pub fn usbdisk_ahead(disk: *mut usbdisk, first: u64, count: u32) -> u32;

    pub fn usbdisk_format(image: *mut usbdisk, plan: *const crate::Plan) -> u32;
    pub fn usbdisk_lay_log(image: *mut usbdisk, plan: *const crate::Plan) -> u32;
    pub fn usbdisk_migrate(image: *mut usbdisk, plan: *const crate::Plan) -> u32;

    pub fn usbdisk_store_start(store: *mut usbdisk, options: *const usbdisk_options) -> u32;
    pub fn usbdisk_store_sizes(store: *mut usbdisk, blocks: *mut u64, limit: *mut u32) -> u32;
    pub fn usbdisk_store_read(store: *mut usbdisk, block: u64, bytes: *mut u8, size: usize) -> u32;
    pub fn usbdisk_store_write(
        store: *mut usbdisk,
        block: u64,
        bytes: *const u8,
        size: usize,
    ) -> u32;
    pub fn usbdisk_store_sync(store: *mut usbdisk) -> u32;
}
