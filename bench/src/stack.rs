//! The stack that a call takes, on x86-64: it runs on a stack of its own, filled with a pattern before.

use crate::reader::{serduzhap_read, ReadNumbers};
use serduzhap::ffi::{serduzhap_check, serduzhap_message, serduzhap_name, serduzhap_report};
use serduzhap::{LONGEST_MESSAGE, LONGEST_REPORT, RECORD, WORK};
use std::arch::asm;
use std::mem::MaybeUninit;

/// The stack of a call: this many words that hold a pattern, so that a word which was written shows.
const WORDS: usize = 1 << 17;
const PATTERN: u64 = 0xa5a5_a5a5_a5a5_a5a5;

/// Arguments of a call, pointers and counts: six go in registers, two on the stack. A call that has fewer does
/// not look at the rest.
type Arguments = [u64; 8];

/// The bytes of stack that each of the four calls touches: check, report, message of the first fault, name.
pub fn stacks_of_calls(text: &[u8]) -> [usize; 4] {
    let (mut work, mut out, mut bytes) = (vec![0_u32; WORK], vec![0_u32; LONGEST_REPORT], [0_u8; LONGEST_MESSAGE]);
    let mut answer = [0_u32; RECORD];
    let answer_at = answer.as_mut_ptr() as u64;
    let (text_at, text_len) = (text.as_ptr() as u64, text.len() as u64);
    let (work_at, work_len) = (work.as_mut_ptr() as u64, work.len() as u64);
    let (out_at, out_len) = (out.as_mut_ptr() as u64, out.len() as u64);
    let (bytes_at, bytes_len) = (bytes.as_mut_ptr() as u64, bytes.len() as u64);
    let check = [text_at, text_len, work_at, work_len, answer_at, 0, 0, 0];
    let report = [text_at, text_len, work_at, work_len, out_at, out_len, answer_at, 0];
    let message = [text_at, text_len, work_at, work_len, 0, bytes_at, bytes_len, answer_at];
    let name = [text_at, text_len, work_at, work_len, 0, answer_at, 0, 0];
    // SAFETY: each call with its own arguments: buffers and their counts, and an answer that is long enough for all.
    unsafe {
        [
            stack_used(serduzhap_check as *const (), check),
            stack_used(serduzhap_report as *const (), report),
            stack_used(serduzhap_message as *const (), message),
            stack_used(serduzhap_name as *const (), name),
        ]
    }
}

/// The bytes of stack that the reader touches. Its answer is a struct that the caller makes room for, with a
/// pointer before the arguments: one of more than 16 bytes, by the rules of C on x86-64.
pub fn stack_of_reader(text: &[u8]) -> usize {
    const { assert!(size_of::<ReadNumbers>() > 16) };
    let (mut work, mut answer) = (vec![0_u32; WORK], MaybeUninit::<ReadNumbers>::uninit());
    let (text_at, text_len) = (text.as_ptr() as u64, text.len() as u64);
    let (work_at, work_len) = (work.as_mut_ptr() as u64, work.len() as u64);
    let arguments = [answer.as_mut_ptr() as u64, text_at, text_len, work_at, work_len, 0, 0, 0];
    // SAFETY: the arguments are those of the call.
    unsafe { stack_used(serduzhap_read as *const (), arguments) }
}

/// The bytes of stack that one call touches, its return address among them and its arguments not.
///
/// # Safety
///
/// The arguments are those of the call.
unsafe fn stack_used(call: *const (), arguments: Arguments) -> usize {
    let [first, second, third, fourth, fifth, sixth, seventh, eighth] = arguments;
    let mut stack = vec![PATTERN; WORDS];
    // an address that is a multiple of 16, as the call expects it, with the last two arguments from there on
    let top = (WORDS - 4) - (stack.as_ptr() as usize / size_of::<u64>()) % 2;
    stack[top] = seventh;
    stack[top + 1] = eighth;
    let top_at = stack.as_mut_ptr().wrapping_add(top);
    // SAFETY: the registers and the stack hold the arguments as the call expects them, r12 keeps the stack pointer
    // meanwhile, and the stack is far longer than any call takes.
    unsafe {
        asm!(
            "mov r12, rsp",
            "mov rsp, {top}",
            "call {call}",
            "mov rsp, r12",
            top = in(reg) top_at,
            call = in(reg) call,
            in("rdi") first,
            in("rsi") second,
            in("rdx") third,
            in("rcx") fourth,
            in("r8") fifth,
            in("r9") sixth,
            out("r12") _,
            clobber_abi("C"),
        );
    }
    let untouched = stack.iter().take_while(|&&word| word == PATTERN).count();
    size_of::<u64>() * (top - untouched)
}
