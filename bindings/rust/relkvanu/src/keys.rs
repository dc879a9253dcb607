//! Groups of keys, of which each subtask has some, so that another parallelism finds the state of a key.

/// The group of a key, from 0 and below `most`, which is not 0. Keys that are equal are in the same group, in each process and in Python, where a text is its
/// UTF-8 and a number its digits. A job keeps `most`. Subtask i of n has the groups g with `g * n / most == i`.
///
/// ```
/// assert_eq!(relkvanu::group_of(b"123456789", 1 << 32), 0xcbf4_3926); // the check value of CRC-32
/// assert_eq!(relkvanu::group_of("a".as_bytes(), 8), 3);
/// ```
pub fn group_of(key: &[u8], most: u64) -> u64 {
    let of_byte = |crc: u32, byte: &u8| {
        (0..8).fold(crc ^ u32::from(*byte), |it, _| it >> 1 ^ if it & 1 == 1 { 0xedb8_8320 } else { 0 })
    };
    u64::from(!key.iter().fold(u32::MAX, of_byte)) % most
}
