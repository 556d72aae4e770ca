//! The values that the fields of the file of calls stand for.

/// Bytes after which the file's pattern begins again.
const PERIOD: usize = 65_536;

/// The bytes that an argument stands for.
pub fn bytes(field: &str) -> Vec<u8> {
    if field == "-" {
        return Vec::new();
    }
    if let Some((length, seed)) = field.strip_prefix('*').and_then(|pattern| pattern.split_once(':')) {
        return patterned(number(length), number(seed));
    }
    assert!(field.len() % 2 == 0, "hexadecimal digits come in pairs: {field}");
    (0..field.len())
        .step_by(2)
        .map(|at| u8::from_str_radix(&field[at..at + 2], 16).expect("hexadecimal digits"))
        .collect()
}

/// Byte i is (seed + 7 i + i div 256) mod 256.
fn patterned(length: usize, seed: usize) -> Vec<u8> {
    let period: Vec<u8> = (0..PERIOD.min(length)).map(|i| (seed + 7 * i + i / 256) as u8).collect();
    repeated(&period, length)
}

/// As many bytes as are asked for of a block that is written again and again.
pub fn repeated(block: &[u8], length: usize) -> Vec<u8> {
    let mut all = block.repeat(length / block.len().max(1) + 1);
    all.truncate(length);
    all
}

/// A decimal number.
pub fn number<N: std::str::FromStr>(field: &str) -> N {
    field.parse().ok().unwrap_or_else(|| panic!("{field} is no decimal number that fits"))
}

/// The 25 lanes of 200 bytes, low byte first.
pub fn lanes(field: &str) -> [u64; 25] {
    let bytes = bytes(field);
    assert_eq!(bytes.len(), 200, "the lanes are 200 bytes");
    std::array::from_fn(|lane| u64::from_le_bytes(bytes[8 * lane..8 * lane + 8].try_into().expect("8 bytes")))
}

/// Numbers separated by commas, of which `TIMES*NUMBER` is that many equal ones.
pub fn list<N: std::str::FromStr + Clone>(field: &str) -> Vec<N> {
    let runs = field
        .split(',')
        .filter(|run| *run != "-")
        .map(|run| run.split_once('*').unwrap_or(("1", run)));
    runs.flat_map(|(times, value)| vec![number(value); number(times)]).collect()
}

/// Whether an output is the one that the file shows.
pub fn agrees(field: &str, output: &[u8]) -> bool {
    match field.strip_prefix('%') {
        Some(checked) => checked == format!("{}:{:08x}", output.len(), crc32(output)),
        None => bytes(field) == output,
    }
}

/// zlib's CRC-32, a byte at a time by a table.
pub fn crc32(output: &[u8]) -> u32 {
    let table: [u32; 256] = std::array::from_fn(|byte| (0..8).fold(byte as u32, |rest, _| (rest >> 1) ^ (0xEDB8_8320 * (rest & 1))));
    !output.iter().fold(!0, |rest, byte| (rest >> 8) ^ table[usize::from(rest as u8 ^ byte)])
}
