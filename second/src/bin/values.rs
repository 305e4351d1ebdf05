//! What a value costs: a span's value in each of many records, through the
//! archive and by plain Rust shifts and masks behind the same slices, by turns
//! in one process. Prints a table for docs/SPEED.md.

use second::archive;
use second::generate::random::Random;
use second::plain_value;
use second::timing::{figure, medians};
use std::hint::black_box;

/// Records of 32 bytes each, in 32 KiB: what a first cache holds.
const RECORD: usize = 32;
const RECORDS: usize = 1024;

/// First bit, bits, signed or not, and what it is.
const SPANS: [(u32, u32, bool, &str); 9] = [
    (0, 16, false, "16 bits from bit 0, unsigned"),
    (0, 16, true, "16 bits from bit 0, signed"),
    (64, 32, false, "32 bits from bit 64, unsigned"),
    (64, 64, true, "64 bits from bit 64, signed"),
    (67, 1, false, "1 bit from bit 67, unsigned"),
    (13, 28, true, "28 bits from bit 13, signed"),
    (67, 61, true, "61 bits from bit 67, signed"),
    (67, 64, false, "64 bits from bit 67, in nine bytes"),
    (192, 64, false, "64 bits from bit 192, the last eight bytes"),
];

fn main() {
    let mut r = Random::new(20261616);
    let records: Vec<u8> = (0..RECORD * RECORDS).map(|_| r.below(256) as u8).collect();
    println!("| Span | ns a value | plain Rust, ns | ratio |");
    println!("|---|---|---|---|");
    for (from, bits, signed, title) in SPANS {
        let span = [u32::from(signed), RECORD as u32, from, bits, 0];
        compare(&span, &records, title);
        let (mut told, mut given) = ([0; 5], [0; 16]);
        let (mut plain_told, mut plain_given) = ([0; 5], [0; 16]);
        let [own, plain] = medians([
            &mut || {
                for record in black_box(&records).chunks(RECORD) {
                    archive::value(black_box(&span), record, &mut told, &mut given);
                }
            },
            &mut || {
                for record in black_box(&records).chunks(RECORD) {
                    plain_value::value(black_box(&span), record, &mut plain_told, &mut plain_given);
                }
            },
        ]);
        println!(
            "| {title} | {} | {} | {} |",
            figure(own / RECORDS as f64),
            figure(plain / RECORDS as f64),
            figure(own / plain)
        );
    }
}

/// Both read the same.
fn compare(span: &[u32], records: &[u8], title: &str) {
    for record in records.chunks(RECORD) {
        let (mut told, mut given) = ([0; 5], [0; 16]);
        let (mut plain_told, mut plain_given) = ([0; 5], [0; 16]);
        archive::value(span, record, &mut told, &mut given);
        plain_value::value(span, record, &mut plain_told, &mut plain_given);
        assert_eq!((told, given), (plain_told, plain_given), "{title}");
    }
}
