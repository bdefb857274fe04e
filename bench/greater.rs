
/// The greater of two, where a second one that is no number counts for nothing: what the Rust's `max` does,
/// in two instructions that valgrind runs as the processor does.
#[inline(always)]
fn greater(a: f64, b: f64) -> f64 {
    let most: f64;
    unsafe {
        core::arch::asm!(
            "fcmp {a:d}, {b:d}",
            "fcsel {most:d}, {b:d}, {a:d}, mi",
            a = in(vreg) a,
            b = in(vreg) b,
            most = lateout(vreg) most,
            options(pure, nomem, nostack),
        );
    }
    most
}
