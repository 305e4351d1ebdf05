//! Identifiers without chance: every byte at every place of a name, of the
//! shortest names and of those on both sides of the limit, in both byte orders.

use crate::generate::edges::add_blob;
use crate::generate::turn::both;
use crate::make::Make;
use crate::table::Kind;
use crate::vectors::Case;

const LENGTHS: [usize; 7] = [1, 2, 3, 126, 127, 128, 129];

/// A FWD alone, its name all letters but for the one byte. A zero byte ends
/// the name where it stands.
pub fn cases() -> Vec<Case> {
    let mut found = Vec::new();
    for length in LENGTHS {
        for place in 0..length {
            for byte in 0..=255 {
                let mut text = vec![b'a'; length];
                text[place] = byte;
                let mut m = Make::new();
                let name = m.string(text);
                m.bare(Kind::Fwd, name, 0, &[]);
                for blob in both(&m.blob()) {
                    add_blob(&mut found, blob, 2);
                }
            }
        }
    }
    found
}
