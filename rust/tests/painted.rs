//! The stack that a call uses: it is run on a stack of its own, painted, and what it wrote to is
//! counted down to the lowest byte. For x86-64.

use std::arch::asm;

const PAINT: u8 = 0xA5;
const STACK: usize = 1 << 20;

/// The bytes of a painted stack that `work` writes to.
pub fn stack_used(mut work: &mut dyn FnMut()) -> usize {
    let mut stack = vec![PAINT; STACK];
    let start = stack.as_mut_ptr() as usize;
    let top = (start + STACK) & !63;
    // SAFETY: the call runs on memory of its own, from its aligned top down, and the old stack pointer
    // is kept in a register that the called function must restore.
    unsafe {
        asm!(
            "mov r12, rsp",
            "mov rsp, {top}",
            "call {call}",
            "mov rsp, r12",
            top = in(reg) top,
            call = sym call,
            in("rdi") &mut work,
            out("r12") _,
            clobber_abi("C"),
        );
    }
    let untouched = stack.iter().take_while(|&&byte| byte == PAINT).count();
    top - start - untouched
}

extern "C" fn call(work: &mut &mut dyn FnMut()) {
    work();
}
