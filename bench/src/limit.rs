//! The plain limits: the same bytes written by copy and fill, and a bare walk over headers.

const PAGE: usize = 4096;

pub fn padded(end: usize) -> usize {
    end.div_ceil(PAGE) * PAGE
}

/// A record's bytes, and nothing else.
pub fn write_record(slot: &mut [u8], at: usize, id: u64, payload: &[u8]) {
    let end = at + 12 + payload.len();
    slot[at..at + 4].copy_from_slice(&(payload.len() as u32).to_le_bytes());
    slot[at + 4..at + 12].copy_from_slice(&id.to_le_bytes());
    slot[at + 12..end].copy_from_slice(payload);
    slot[end..padded(end)].fill(0);
}

/// The sum of the ids of an image's records: every header is touched, nothing is checked.
pub fn walk(image: &[u8]) -> u64 {
    let (mut at, mut sum) = (0, 0u64);
    while at + 12 <= image.len() {
        let length = u32::from_le_bytes(image[at..at + 4].try_into().unwrap()) as usize;
        sum = sum.wrapping_add(u64::from_le_bytes(image[at + 4..at + 12].try_into().unwrap()));
        at = padded(at + 12 + length);
    }
    sum
}

/// The record `last`, by a bare walk over an area's images, one in each slot: every header up to it is touched, nothing is checked.
pub fn walk_to(area: &[u8], capacity: usize, last: u64) -> u64 {
    for image in area.chunks(capacity) {
        let mut at = 0;
        while at + 12 <= image.len() {
            let length = u32::from_le_bytes(image[at..at + 4].try_into().unwrap()) as usize;
            if u64::from_le_bytes(image[at + 4..at + 12].try_into().unwrap()) == last {
                return last;
            }
            at = padded(at + 12 + length);
        }
    }
    0
}
