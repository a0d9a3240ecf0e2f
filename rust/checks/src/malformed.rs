//! Events with something wrong in their bytes.

use crate::random::Random;

/// Puts something wrong into an event for a state of these words, mostly.
pub fn malformed(random: &mut Random, words: &[u32], mut event: Vec<u8>) -> Vec<u8> {
    // One that comes here twice may have no bytes left.
    if event.is_empty() {
        return event;
    }
    let place = random.place(event.len());
    match random.below(8) {
        0 => event.truncate(place),
        1 => event.resize(event.len() + 1 + random.place(8), random.byte()),
        2 => event[0] = random.byte(),
        3 | 4 if event.len() > 2 => {
            // The first name of kinds 3 to 9, at or above its count.
            let count = match event[0] {
                3 | 4 | 9 => words[1],
                _ => words[0],
            };
            let name = random.pick(&[count as u16, count as u16 + 1, u16::MAX]);
            event[1..3].copy_from_slice(&name.to_le_bytes());
        }
        // The board of kind 4; the order number of kinds 5 to 8; the old shares
        // of kind 9.
        5 if event.len() > 6 && event[0] == 4 => event[3] = random.pick(&[2, 3, 255]),
        5 if event.len() > 12 && event[0] == 9 => event[11..13].fill(0),
        5 if event.len() > 6 => event[3..7].fill(0),
        _ => event[place] = random.pick(&[0, 1, 2, 3, 4, 5, 7, 128, 255]),
    }
    event
}
