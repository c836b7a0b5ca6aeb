//! Where the code stands. A loop's time changes by up to a tenth with its place in a cache line, so the driver is built with so many bytes
//! (PLACEMENT) in front of everything that is measured, and several such drivers are run.
use std::arch::global_asm;

global_asm!(
    ".pushsection .text.placement, \"ax\", @progbits",
    ".globl placement",
    "placement:",
    "ret",
    concat!(".skip ", env!("PLACEMENT")),
    ".popsection",
);

extern "C" {
    fn placement();
}

/// Keeps the bytes in the program.
pub fn stand() {
    // SAFETY: it returns at once.
    unsafe { placement() }
}
