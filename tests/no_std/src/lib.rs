//! A library without the standard library and without an allocator: it scans, walks and writes in memory of its own. That it builds shows
//! that the wrapper needs neither: if it did, there would be two panic handlers, or no allocator.
#![no_std]

use vekalumist::{key_order, write_with_order, Facts, Forest, Parts, ScanOptions};

#[panic_handler]
fn panicked(_: &core::panic::PanicInfo<'_>) -> ! {
    loop {}
}

/// The number of entries in the map of a file that is written and read here; the number of a refusal, or 0, where there is one.
#[no_mangle]
pub extern "C" fn entries() -> u64 {
    let (mut out, mut order, mut keys) = ([0; 128], [0; 2], [0; 2]);
    let parts = Parts { keys: &[2, 0, 0, 0, 1, 0, 0, 0], lengths: &[0, 0], ..Parts::default() };
    let written = write_with_order(&Facts::STAND_IN, &parts, key_order(parts.keys, &mut order), &mut out);
    let Ok(len) = written else { return 0 };
    match Forest::scan(&out[..len], &Facts::STAND_IN, ScanOptions::new()).and_then(|forest| Ok(forest.advice(&mut keys)?.len())) {
        Ok(entries) => entries as u64,
        Err(refusal) => refusal.kind.number(),
    }
}
