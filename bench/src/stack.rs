//! How deep a call writes into its stack.

use std::arch::asm;

const WORDS: usize = 1 << 20;
const PAINT: u64 = 0xA5C3_96E1_5A3C_691E;

/// Runs `call` on a painted stack of its own, and answers the bytes from the
/// deepest word that lost its paint to the top.
fn written(call: &mut dyn FnMut()) -> usize {
    let mut stack = vec![PAINT; WORDS];
    let mut call = call;
    let data: *mut &mut dyn FnMut() = &mut call;
    // SAFETY: the stack is ours, is aligned at its top and far larger than
    // any call here; `enter` doesn't unwind.
    unsafe {
        let top = stack.as_mut_ptr().add(WORDS) as usize & !15;
        asm!(
            "mov r12, rsp",
            "mov rsp, {top}",
            "call {enter}",
            "mov rsp, r12",
            out("r12") _,
            top = in(reg) top,
            enter = sym enter,
            in("rdi") data,
            clobber_abi("C"),
        );
    }
    let painted = stack.iter().take_while(|word| **word == PAINT).count();
    assert!(painted > 0, "the stack was too small");
    (WORDS - painted) * 8
}

extern "C" fn enter(call: *mut &mut dyn FnMut()) {
    // SAFETY: `written` waits for it.
    unsafe { (*call)() }
}

/// The same without what the call itself takes.
pub fn depth(mut call: impl FnMut()) -> usize {
    written(&mut call) - written(&mut || ())
}
