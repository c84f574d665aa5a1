//! Writes the CRC-32 of the input (RFC 1952, section 8), its greatest byte first, and exits with 0.
#![no_std]
#![no_main]

mod machine;

/// The polynomial of RFC 1952, its lowest power first.
const POLYNOMIAL: u32 = 0xedb8_8320;

fn crc32(bytes: &[u8]) -> u32 {
    let taken = |crc: u32, byte: &u8| {
        (0..8).fold(crc ^ u32::from(*byte), |rest, _| if rest & 1 == 0 { rest >> 1 } else { rest >> 1 ^ POLYNOMIAL })
    };
    !bytes.iter().fold(!0, taken)
}

#[no_mangle]
extern "C" fn main() -> i32 {
    for byte in crc32(machine::input()).to_be_bytes() {
        machine::put_byte(byte);
    }
    0
}
