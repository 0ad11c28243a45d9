//! How much stack a call touches, on x86-64.

use std::arch::asm;

/// A stack on which every call on chains of about 4,000 nodes fits.
pub const SMALL_STACK: usize = 800 << 10;

/// What the words of a stack hold before a call.
const UNTOUCHED: u64 = 0x5bd1_e995_dead_beef;

/// Bytes from a call down to the lowest word of its stack that it writes; the stack has so many words, which must be
/// ample, as nothing stops a call below them.
pub fn touched<F: FnMut()>(words: usize, mut work: F) -> usize {
    extern "C" fn enter<F: FnMut()>(work: &mut F) {
        work();
    }
    let mut stack = vec![UNTOUCHED; words & !1];
    let top = stack.as_mut_ptr_range().end as usize & !15;
    // The call is made on that stack; r12, which a callee keeps, holds the place on this one meanwhile.
    unsafe {
        asm!(
            "xchg rsp, r12",
            "call r13",
            "mov rsp, r12",
            inout("r12") top => _,
            in("r13") enter::<F>,
            in("rdi") &mut work,
            clobber_abi("C"),
        );
    }
    let first = stack.iter().position(|&word| word != UNTOUCHED);
    let first = first.expect("a return address");
    assert!(first > 0, "the stack was too small");
    8 * (stack.len() - first)
}
