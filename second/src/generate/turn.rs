//! The other byte order: blobs and cases turned round. Nothing is carried over
//! but the bytes; what is to be seen of a turned case the rules say anew.

use crate::generate::fields::turned_list;
use crate::generate::random::Random;
use crate::order::{Order, ORDERS};
use crate::table::HEADER_BYTES;
use crate::vectors::{module_and_index, Case, EXT, EXT_RECORD, JOIN};
use crate::vectors::{LEANING, LEANING_NAME, LEANING_SIZE, LIST_READ};

/// A blob in the other order: its first two bytes change places, and each word
/// behind the first four bytes is reversed, up to the strings. Any bytes can be
/// turned, and a blob that begins with either order's magic turns back.
pub fn turned(blob: &[u8]) -> Vec<u8> {
    let mut turned = blob.to_vec();
    if turned.len() >= 2 {
        turned.swap(0, 1);
    }
    let end = words_end(blob);
    for place in (4..end.saturating_sub(3)).step_by(4) {
        turned[place..place + 4].reverse();
    }
    turned
}

/// Where the header says that the strings begin, in the blob's own order; the
/// end of the blob where that is further on or the header is cut short.
fn words_end(blob: &[u8]) -> usize {
    if blob.len() < HEADER_BYTES {
        return blob.len();
    }
    let type_len = Order::of(blob).word(blob, 12) as usize;
    blob.len().min(HEADER_BYTES + type_len)
}

/// A .BTF.ext section in the other order: it is words to its end.
pub fn turned_ext(section: &[u8]) -> Vec<u8> {
    let mut turned = section.to_vec();
    if turned.len() >= 2 {
        turned.swap(0, 1);
    }
    for word in turned.chunks_exact_mut(4).skip(1) {
        word.reverse();
    }
    turned
}

/// A little-endian blob in this order.
pub fn in_order(blob: &[u8], order: Order) -> Vec<u8> {
    match order {
        Order::Little => blob.to_vec(),
        Order::Big => turned(blob),
    }
}

/// The same in both.
pub fn both(blob: &[u8]) -> [Vec<u8>; 2] {
    ORDERS.map(|order| in_order(blob, order))
}

/// A case in the other order: both tables of a join, and of a pair, a list, or a
/// section and its table. The index of a size question is plain numbers.
pub fn turned_case(case: &Case) -> Case {
    let mut other = case.clone();
    other.a = match case.op {
        LIST_READ => turned_list(&case.a),
        EXT_RECORD => turned_ext(&case.a),
        _ => turned(&case.a),
    };
    if [JOIN, LEANING, LEANING_NAME].contains(&case.op) {
        other.b = turned(&case.b);
    }
    if case.op == EXT {
        other.b = turned_ext(&case.b);
    }
    if case.op == LEANING_SIZE {
        let (module, index) = module_and_index(case);
        other.b = [&turned(module), index].concat();
    }
    other
}

/// One in two is turned.
pub fn in_some_order(r: &mut Random, case: Case) -> Case {
    if r.one_in(2) {
        turned_case(&case)
    } else {
        case
    }
}

/// A join of two orders, made of one of a single order.
pub fn mixed(r: &mut Random, mut case: Case) -> Case {
    if r.one_in(2) {
        case.a = turned(&case.a);
    } else {
        case.b = turned(&case.b);
    }
    case
}
