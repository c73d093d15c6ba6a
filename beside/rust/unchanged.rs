//! Whether a copy is its source to the byte, with `line` behind it.

pub const fn unchanged(copy: &[u8], source: &[u8], line: &[u8]) -> bool {
    if copy.len() != source.len() + line.len() {
        return false;
    }
    let mut i = 0;
    while i < copy.len() {
        let byte = if i < source.len() { source[i] } else { line[i - source.len()] };
        if copy[i] != byte {
            return false;
        }
        i += 1;
    }
    true
}
