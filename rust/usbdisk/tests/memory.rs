//! What is started takes memory, and gives all of it back where it is dropped.
use std::alloc::{GlobalAlloc, Layout, System};
use std::cell::Cell;
use usbdisk::{
    log_of, memory, memory_kept, memory_to_format, memory_to_migrate, version, Disk, Identity,
    Image, Log, Misuse, Plan, Store, VERSION,
};

struct Counted;

thread_local! {
    static TAKEN: Cell<usize> = const { Cell::new(0) };
}

// SAFETY: the system's allocator does all of it.
unsafe impl GlobalAlloc for Counted {
    unsafe fn alloc(&self, layout: Layout) -> *mut u8 {
        TAKEN.with(|it| it.set(it.get().wrapping_add(layout.size())));
        System.alloc(layout)
    }

    unsafe fn dealloc(&self, at: *mut u8, layout: Layout) {
        TAKEN.with(|it| it.set(it.get().wrapping_sub(layout.size())));
        System.dealloc(at, layout)
    }
}

#[global_allocator]
static COUNTED: Counted = Counted;

/// How much is taken while it is there. Then nothing is.
fn taken<T>(make: impl FnOnce() -> T) -> usize {
    let before = TAKEN.with(Cell::get);
    let made = make();
    let taken = TAKEN.with(Cell::get).wrapping_sub(before);
    drop(made);
    assert_eq!(TAKEN.with(Cell::get), before);
    taken
}

#[test]
fn library_and_crate_are_of_one_version() {
    assert_eq!(version(), VERSION);
    let told = format!(
        "{}.{}.{}",
        VERSION >> 16,
        VERSION >> 8 & 0xFF,
        VERSION & 0xFF
    );
    assert_eq!(told, env!("CARGO_PKG_VERSION"));
}

#[test]
fn a_log_is_the_same_at_compile_time() {
    for (format, slots) in (1..=2).flat_map(|format| (1..=64).map(move |slots| (format, slots))) {
        let (limit, end) = (Log::limit_of(format) as u64, Log::end_of(format, slots));
        let log = log_of(format, slots, 1).unwrap();
        assert_eq!((log.limit, log.end, log.home), (limit, end, end));
        assert_eq!(log.slot_sectors, Log::end_of(format, 1) - 2);
    }
    assert_eq!(log_of(2, 4, 128).map(|log| log.home), Ok(1024));
    for (format, slots, page) in [(1, 4, 128), (2, 4, 0), (2, 65, 1), (3, 4, 1)] {
        assert_eq!(log_of(format, slots, page), Err(Misuse::BadSizes.into()));
    }
}

#[test]
fn an_identity_is_padded() {
    let who = Identity::new("EXAMPLE", "", "0001", "000000000001");
    assert_eq!((who.vendor, who.product), (*b"EXAMPLE ", [b' '; 16]));
}

#[test]
fn what_is_dropped_gives_its_memory_back() {
    let who = Identity::new("EXAMPLE", "COUNTED", "0001", "000000000001");
    let (sectors, format, slots, blocks) = (1000, 1, 2, 64);
    let plan = Plan {
        sectors,
        format,
        slots,
        blocks,
        home: 0,
    };
    assert!(taken(|| Disk::start(sectors, &who, 512).unwrap()) > 0);
    assert!(taken(|| Store::start(sectors).unwrap()) > 0);
    assert!(taken(|| Image::format(&plan).unwrap()) > 0);
    assert!(taken(|| Image::lay_log(&plan).unwrap()) > 0);
    assert!(taken(|| Image::migrate(sectors).unwrap()) > 0);
    assert_eq!(taken(|| Disk::start(sectors, &who, 63).err()), 0);
    assert!(taken(|| Disk::start_keeping(sectors, &who, 512, 1).unwrap()) > 0);
    assert!(taken(|| Store::start_keeping(sectors, 1).unwrap()) > 0);
    assert!(memory(1, 3) > memory(1, 2) && memory(1, 2) > 0);
    assert!(memory_to_format(2, 64) > 0 && memory_to_format(2, 65) == 0);
    assert!(memory_to_migrate(6) > memory_to_migrate(5) && memory_to_migrate(0) == 0);
    assert_eq!(memory(2, 6), memory_kept(2, 6, 4));
    assert_eq!(memory_kept(2, 6, 4), memory_kept(2, 6, 3) + 128_720);
    assert_eq!((memory(3, 2), memory_kept(2, 65, 1)), (0, 0));
}
