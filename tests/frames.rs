//! Frames laid behind the bytes of a tape.

/// An opening.
pub fn open(tape: &mut Vec<u8>, d: u8, memory: u16, directions: u8) {
    tape.extend([48, d]);
    tape.extend(memory.to_le_bytes());
    tape.push(directions);
}

/// A quote; its kind is the number of its columns.
pub fn quote(tape: &mut Vec<u8>, columns: &[u32]) {
    tape.push(columns.len() as u8);
    for column in columns {
        tape.extend(column.to_le_bytes());
    }
}

/// A watch of n.
pub fn watch(tape: &mut Vec<u8>, n: u16) {
    tape.push(17);
    tape.extend(n.to_le_bytes());
}
