//! The delay before an ACK: receivers of one message do not answer at once.

const TABLE: [u8; 256] = table();

const fn table() -> [u8; 256] {
    let mut table = [0u8; 256];
    let mut place = 1;
    while place < table.len() {
        table[place] = table[place - 1].wrapping_mul(5).wrapping_add(1);
        place += 1;
    }
    table
}

pub fn delay(receiver: u32, message: u32) -> u64 {
    let place = (receiver as u8).wrapping_add(message as u8);
    u64::from(TABLE[usize::from(place)])
}
