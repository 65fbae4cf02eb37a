// Keeps the optimiser from leaving out work whose result nobody reads.

/// As far as the optimiser knows, every byte of `value` is read here.
pub fn keep<T>(value: &T) {
    // SAFETY: no instruction at all; the pointer is only named.
    unsafe {
        std::arch::asm!("/* {0} */", in(reg) value as *const T, options(nostack, preserves_flags))
    }
}
