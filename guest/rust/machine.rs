//! What a program in Rust has of the machine that refcli runs, as `../machine.h` says it for C: its input, three calls, and a panic handler.

use core::arch::asm;
use core::panic::PanicInfo;
use core::slice;

const INPUT_LENGTH: *const u32 = 0x4000_0000 as *const u32;
const INPUT_BYTES: *const u8 = 0x4000_0004 as *const u8;

/// The status with which a panic ends the run.
const PANICKED: i32 = 101;

/// The input, in versions 1 and 2. In version 3 it is empty.
#[allow(dead_code)]
pub fn input() -> &'static [u8] {
    // The machine lays the length there, and so many bytes behind it; nothing else writes to them.
    unsafe { slice::from_raw_parts(INPUT_BYTES, INPUT_LENGTH.read() as usize) }
}

/// Appends a byte to the output: ECALL 1.
pub fn put_byte(byte: u8) {
    unsafe { asm!("ecall", in("a0") u32::from(byte), in("a7") 1) }
}

/// The input's byte of a number from 0, or nothing where it has no such byte, in version 3: ECALL 2.
#[allow(dead_code)]
pub fn read_byte(number: u32) -> Option<u8> {
    let answer: i32;
    unsafe { asm!("ecall", inlateout("a0") number => answer, in("a7") 2) }
    u8::try_from(answer).ok()
}

/// Ends the run, as a return from `main` does: ECALL 93.
pub fn exit_with(status: i32) -> ! {
    unsafe { asm!("ecall", in("a0") status, in("a7") 93, options(noreturn)) }
}

#[panic_handler]
fn panicked(_why: &PanicInfo) -> ! {
    exit_with(PANICKED)
}
