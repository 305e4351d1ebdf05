//! Writes the small tables that the tool is tried on into a folder:
//! `cargo run --offline --manifest-path second/Cargo.toml --example tables -- FOLDER`.

use second::join::join;
use second::limits::{BYTE_LIMIT, FULL_PLACES};
use second::make::{field, info, int_word, Make};
use second::table::Kind;
use std::path::Path;

const UNSIGNED: u32 = 0;
const SIGNED: u32 = 1;
const CHAR: u32 = 2;
const BOOL: u32 = 4;

fn int(m: &mut Make, name: &[u8], bytes: u32, encoding: u32) -> u32 {
    let name = m.string(name);
    m.bare(Kind::Int, name, bytes, &[int_word(encoding, 0, 8 * bytes)])
}

/// One supplier's: a temperature that is never below zero.
fn blade() -> Make {
    let mut m = Make::new();
    let centi = int(&mut m, b"centi", 2, UNSIGNED);
    let (name, degrees) = (m.string("blade"), m.string("degrees"));
    m.listed(Kind::Struct, false, name, 2, &[[degrees, centi, 0]]);
    m
}

/// Another supplier's: an angle that may be below zero.
fn drum() -> Make {
    let mut m = Make::new();
    let lean = int(&mut m, b"lean", 2, SIGNED);
    let (name, left, right) = (m.string("drum"), m.string("left"), m.string("right"));
    m.listed(
        Kind::Struct,
        false,
        name,
        4,
        &[[left, lean, 0], [right, lean, 16]],
    );
    m
}

/// Every kind, with names that a terminal must not get as they are.
fn kinds() -> Make {
    let mut m = Make::new();
    let word = int(&mut m, b"unsigned int", 4, UNSIGNED);
    let centi = int(&mut m, b"centi", 2, UNSIGNED);
    let lean = int(&mut m, b"lean", 2, SIGNED);
    let red = int(&mut m, b"\x1b[31mred\\\xff\n", 1, CHAR);
    int(&mut m, b"flag", 1, BOOL);
    let name = m.string("odd");
    let odd = m.bare(Kind::Int, name, 4, &[int_word(UNSIGNED, 3, 4)]);
    let pointer = m.ptr(centi);
    m.ptr(0);
    m.array(centi, word, 10);
    let (name, a, b, c) = (
        m.string("blade"),
        m.string("degrees"),
        m.string("lean"),
        m.string("marks"),
    );
    let members = [[a, centi, 0], [b, lean, 16], [c, odd, 32]];
    let blade = m.listed(Kind::Struct, false, name, 8, &members);
    m.union(4, false, &[[a, word, 0], [b, lean, 0]]);
    let (name, x, y) = (m.string("state"), m.string("OFF"), m.string("BAD"));
    m.listed(Kind::Enum, true, name, 4, &[[x, 0], [y, u32::MAX]]);
    let name = m.string("plain");
    m.listed(Kind::Enum, false, name, 4, &[[x, 0], [y, u32::MAX]]);
    let name = m.string("later");
    let later = m.bare(Kind::Fwd, name, 0, &[]);
    m.raw(name, info(Kind::Fwd, true, 0), 0, &[]);
    let name = m.string("temp");
    let temp = m.typedef(name, centi);
    let volatile = m.bare(Kind::Volatile, 0, temp, &[]);
    m.constant(volatile);
    m.bare(Kind::Restrict, 0, pointer, &[]);
    m.ptr(later);
    let speed = m.string("speed");
    let proto = m.proto(0, &[[speed, word], [0, 0]]);
    let name = m.string("start");
    m.raw(name, info(Kind::Func, false, 1), proto, &[]);
    let name = m.string("spindle");
    let spindle = m.var(name, blade);
    let name = m.string(".data");
    m.section(name, 16, &[[spindle, 8, 8]]);
    let name = m.string("double");
    m.bare(Kind::Float, name, 8, &[]);
    let name = m.string("hot");
    m.tag(name, blade, 1);
    m.tag(name, blade, u32::MAX);
    m.raw(name, info(Kind::TypeTag, true, 0), centi, &[]);
    let name = m.string("wide");
    let values = [[x, 1, 0], [y, 0, 0x8000_0000]];
    m.listed(Kind::Enum64, true, name, 8, &values);
    m.listed(Kind::Enum64, false, 0, 8, &values);
    let name = m.string("bits");
    let fields = [
        [a, word, field(3, 0)],
        [b, word, field(5, 3)],
        [c, centi, 16],
    ];
    m.listed(Kind::Struct, true, name, 4, &fields);
    let row = m.array(red, word, 65536);
    m.array(row, word, 65536);
    m
}

/// A struct that holds itself: report 14.
fn ring() -> Make {
    let mut m = Make::new();
    m.int(2);
    let (name, next) = (m.string("loop"), m.string("next"));
    m.listed(Kind::Struct, false, name, 8, &[[next, 2, 0]]);
    m
}

/// A struct whose second member is not there: report 6.
fn torn() -> Make {
    let mut m = ring();
    m.at(2).set_vlen(2);
    m
}

/// Structs that each hold the next twice, in members without a name: written
/// out, they would be over a thousand lines.
fn nest() -> Make {
    let mut m = Make::new();
    let a = m.string("a");
    for next in 2..=12 {
        m.structure(4, false, &[[0, next, 0], [0, next, 0]]);
    }
    m.structure(4, false, &[[a, 13, 0]]);
    m.int(4);
    m
}

/// Both suppliers' in one.
fn both() -> Vec<u8> {
    let [mut index, mut work] = [0; 2].map(|_| vec![0; FULL_PLACES as usize]);
    let mut output = vec![0; BYTE_LIMIT as usize];
    let (first, second) = (blade().blob(), drum().blob());
    let length =
        join(&first, &second, &mut index, &mut work, &mut output).expect("they can be joined");
    output[..length].to_vec()
}

fn main() {
    let folder = std::env::args().nth(1).expect("a folder");
    for (name, blob) in [
        ("blade", blade().blob()),
        ("drum", drum().blob()),
        ("both", both()),
        ("kinds", kinds().blob()),
        ("ring", ring().blob()),
        ("torn", torn().blob()),
        ("nest", nest().blob()),
    ] {
        let file = Path::new(&folder).join(name).with_extension("btf");
        std::fs::write(file, blob).expect("the folder can be written");
    }
}
