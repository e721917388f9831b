//! The Rust programs that the library is measured beside, as one archive: two would each bring Rust's run-time library.
mod narrow;
mod ordinary;
mod shaped;
mod tables;

use std::sync::atomic::{AtomicUsize, Ordering::Relaxed};

/// Which form of their stage the shaped and the narrow program take: 0 in blocks, 1 in two loops, 2 in one loop.
static FORM: AtomicUsize = AtomicUsize::new(0);

#[no_mangle]
pub extern "C" fn choose_form(form: usize) {
    FORM.store(form, Relaxed);
}
