//! The names that an archive offers, read from its index: the member `/`, a count, as many places, and as many names that end with a zero byte.

/// Where the index starts: behind the archive's mark of 8 bytes and the member's head of 60.
const INDEX: usize = 68;

/// The names in the archive's index; none where the bytes are no archive with an index.
pub fn names(archive: &[u8]) -> Vec<String> {
    let head = archive.get(..INDEX).unwrap_or_default();
    if !head.starts_with(b"!<arch>\n/ ") {
        return Vec::new();
    }
    let size: usize = String::from_utf8_lossy(&head[56..66]).trim().parse().unwrap_or(0);
    let index = archive.get(INDEX..INDEX + size).unwrap_or_default();
    let count = index.get(..4).map_or(0, |b| u32::from_be_bytes([b[0], b[1], b[2], b[3]]) as usize);
    let text = index.get(4 + 4 * count..).unwrap_or_default();
    text.split(|b| *b == 0).take(count).map(|name| String::from_utf8_lossy(name).into_owned()).collect()
}
