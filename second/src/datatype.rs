//! The data types of a table and the values of an entry.

/// The number of data types; they are bits 0 to 18.
pub const COUNT: u32 = 19;

/// The largest data types field.
pub const LARGEST: u64 = (1 << COUNT) - 1;

/// The field of each data type alone: 1, 2, 4 and so on.
pub const BITS: [u64; COUNT as usize] = {
    let mut bits = [1; COUNT as usize];
    let mut n = 1;
    while n < bits.len() {
        bits[n] = 2 * bits[n - 1];
        n += 1;
    }
    bits
};

/// The number of the server ID.
pub const SERVER: u32 = 0;

/// The largest 32-bit value.
pub const MAX_32: u64 = u32::MAX as u64;

/// Whether a data type is a rate.
pub fn is_rate(number: u32) -> bool {
    matches!(number, 3 | 5 | 8 | 10 | 12 | 14 | 16 | 18)
}

/// Whether a data type takes 64 bits.
pub fn is_wide(number: u32) -> bool {
    matches!(number, 13 | 15)
}

/// The field of one data type alone.
pub fn bit(number: u32) -> u64 {
    BITS[number as usize]
}

/// The data types of the field, ascending.
pub fn present(data_types: u64) -> Vec<u32> {
    (0..COUNT).filter(|&n| data_types & bit(n) != 0).collect()
}

/// The rate types of the field, ascending.
pub fn rates(data_types: u64) -> Vec<u32> {
    let mut numbers = present(data_types);
    numbers.retain(|&n| is_rate(n));
    numbers
}

/// The data type of each value, in the order of an update.
pub fn values(data_types: u64) -> Vec<u32> {
    let mut list = Vec::new();
    for number in present(data_types) {
        list.extend(std::iter::repeat_n(number, integers(number)));
    }
    list
}

/// The number of integers of one data type.
fn integers(number: u32) -> usize {
    match is_rate(number) {
        true => 3,
        false => 1,
    }
}

/// Whether an encoded value is within the range of its data type.
pub fn fits(number: u32, value: u64) -> bool {
    match number {
        SERVER => server_id(value).is_some(),
        _ if is_wide(number) => true,
        _ => value <= MAX_32,
    }
}

/// The server ID that an encoded value stands for, if there is one.
pub fn server_id(value: u64) -> Option<i32> {
    // A negative ID is encoded as its value plus 2^64.
    i32::try_from(value as i64).ok()
}

/// The encoded value of a server ID.
pub fn from_server_id(id: i32) -> u64 {
    i64::from(id) as u64
}
