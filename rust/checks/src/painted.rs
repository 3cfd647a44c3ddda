//! Calls on a stack that was painted before. The lowest byte that has changed
//! says how deep a call went, and the bytes say what it left there.

use std::arch::asm;

/// Far more than any call needs, and a multiple of 16, as a stack's end must be.
const SIZE: usize = 16 * 1024;

/// Two paints, so that no byte of a call's can hide as paint.
pub const PAINTS: [u8; 2] = [0xA5, 0x5A];

#[repr(align(16))]
struct Line([u8; 16]);

/// The stack that a call uses beyond what an empty one does. Each time it gets
/// a new thing to work on, which is made on the ordinary stack. The first time
/// is not measured: symbols that are looked up late are found in it.
pub fn depth<T>(new: impl Fn() -> T, call: impl Fn(&mut T)) -> usize {
    call(&mut new());
    let empty = || ();
    deepest(&new, &call) - deepest(&empty, &|_| ())
}

fn deepest<T>(new: &impl Fn() -> T, call: &impl Fn(&mut T)) -> usize {
    larger(|paint| {
        let mut thing = new();
        left_by(paint, &mut || call(&mut thing)).len()
    })
}

/// The larger of what is found under the two paints.
pub fn larger(under: impl FnMut(u8) -> usize) -> usize {
    PAINTS.into_iter().map(under).max().expect("there are two paints")
}

/// The bytes of a painted stack that a call has changed, from the lowest of them
/// up to the end of the stack.
pub fn left_by<F: FnMut()>(paint: u8, call: &mut F) -> Vec<u8> {
    let run = run::<F> as extern "C" fn(*mut F);
    // SAFETY: run may be called with the pointer of a borrow that outlives the call.
    unsafe { left_by_c(paint, run as *const (), &[call as *mut F as u64]).1 }
}

/// Calls a C function on a painted stack. Gives the two registers of its answer,
/// and the bytes that were changed below its arguments, from the lowest of them:
/// what the function and all that it called have left there.
///
/// # Safety
/// The function may be called with these arguments, all of them words.
#[inline(never)]
pub unsafe fn left_by_c(paint: u8, function: *const (), words: &[u64]) -> ([u64; 2], Vec<u8>) {
    let lines = (0..SIZE / 16).map(|_| Line([paint; 16]));
    let mut stack: Vec<Line> = lines.collect();
    let (in_registers, on_top) = words.split_at(words.len().min(6));
    let below = SIZE - (8 * on_top.len() + 15) / 16 * 16;
    let top = stack.as_mut_ptr().cast::<u8>().add(below);
    top.cast::<u64>().copy_from_nonoverlapping(on_top.as_ptr(), on_top.len());
    let mut registers = [0; 6];
    registers[..in_registers.len()].copy_from_slice(in_registers);
    let answer = on_stack(top, function, registers);
    // The callee may write to its arguments, which are not among the bytes given: it has not.
    assert_eq!(std::slice::from_raw_parts(top.cast::<u64>(), on_top.len()), on_top);
    let untouched = stack.iter().take_while(|line| line.0 == [paint; 16]).count();
    let bytes = stack[untouched..].iter().flat_map(|line| line.0).take(below - 16 * untouched);
    (answer, bytes.skip_while(|byte| *byte == paint).collect())
}

/// Makes the call with the stack pointer at `top`, and puts it back after. The
/// registers that a callee saves are zero, but for one: what it saves of them
/// is nothing of ours.
///
/// # Safety
/// Below `top` lies a stack that is large enough and not otherwise in use, and
/// the function may be called with these registers and what lies at `top`.
unsafe fn on_stack(top: *mut u8, function: *const (), words: [u64; 6]) -> [u64; 2] {
    let (low, high);
    asm!(
        "push rbx",
        "push rbp",
        "mov r12, rsp",
        "mov rsp, r10",
        "xor ebx, ebx",
        "xor ebp, ebp",
        "xor r13d, r13d",
        "xor r14d, r14d",
        "xor r15d, r15d",
        "call rax",
        "mov rsp, r12",
        "pop rbp",
        "pop rbx",
        inlateout("rax") function => low,
        in("r10") top,
        in("rdi") words[0],
        in("rsi") words[1],
        inlateout("rdx") words[2] => high,
        in("rcx") words[3],
        in("r8") words[4],
        in("r9") words[5],
        out("r12") _,
        out("r13") _,
        out("r14") _,
        out("r15") _,
        clobber_abi("C"),
    );
    [low, high]
}

/// What the assembly can call. The pointer is one to a borrowed closure.
extern "C" fn run<F: FnMut()>(call: *mut F) {
    // SAFETY: left_by passes the pointer of a borrow that outlives the call.
    unsafe { (*call)() }
}
