//! How far a call goes into the stack: it runs on a painted stack of its own, and the lowest byte that changed shows it.

use std::arch::asm;

const PAINT: u8 = 0xA5;
const STACK_BYTES: usize = 1 << 21;

/// What is called on the other stack.
struct Task<'a> {
    call: &'a mut dyn FnMut(),
}

extern "C" fn work(task: &mut Task<'_>) {
    (task.call)();
}

/// The bytes of stack that a call takes.
pub fn depth(call: &mut dyn FnMut()) -> usize {
    let mut stack = vec![PAINT; STACK_BYTES];
    let top = (stack.as_mut_ptr_range().end as usize) & !15;
    let mut task = Task { call };
    // SAFETY: the stack is switched to the painted bytes, which are many times what the call takes, and back; `r13` keeps its value over a C call.
    unsafe {
        asm!(
            "mov r13, rsp", "mov rsp, r12", "call {work}", "mov rsp, r13",
            work = sym work,
            in("r12") top,
            out("r13") _,
            inout("rdi") &mut task => _,
            clobber_abi("C"),
        );
    }
    let untouched = stack.iter().take_while(|&&byte| byte == PAINT).count();
    stack.len() - untouched
}
