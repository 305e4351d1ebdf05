//! The tables of example/: accepted, sized and joined as their C text says.

mod common;

use common::{gate, joined, lean};
use second::limits::FULL_PLACES;
use second::order::Order;
use second::{check_leaning, name, name_leaning, size, size_leaning};
use second::{LeaningName, Report, SizeAnswer};

const TABLES: [&str; 4] = [
    "blade.btf",
    "supplier_a.btf",
    "supplier_b.btf",
    "reading.btf",
];

fn file(path: &str) -> Vec<u8> {
    let path = format!("{}/../{path}", env!("CARGO_MANIFEST_DIR"));
    std::fs::read(path).expect("a file of the repository")
}

fn example(name: &str) -> Vec<u8> {
    file(&format!("example/{name}"))
}

/// The sizes of some types of an accepted table.
fn sizes(blob: &[u8], types: &[u32]) -> Vec<SizeAnswer> {
    let mut index = vec![0; FULL_PLACES as usize];
    let mut work = index.clone();
    second::check(blob, &mut index, &mut work).expect("accepted");
    types
        .iter()
        .map(|number| size(blob, &index, *number))
        .collect()
}

#[test]
fn accepted() {
    assert_eq!(gate(&example("blade.btf")), Ok(2));
    assert_eq!(gate(&example("supplier_a.btf")), Ok(37));
    assert_eq!(gate(&example("supplier_b.btf")), Ok(33));
    assert_eq!(gate(&example("reading.btf")), Ok(8));
    assert_eq!(gate(&example("old_controller.btf")), Ok(27));
}

/// What C says of them: a pointer, two structs named blade, the teeth; a
/// function and what is only declared have no size.
#[test]
fn sized() {
    use SizeAnswer::{Exact, NoSize};
    let a = sizes(&example("supplier_a.btf"), &[1, 3, 7, 14, 17, 22]);
    assert_eq!(
        a,
        [Exact(8), Exact(48), Exact(2), Exact(4), Exact(24), NoSize]
    );
    let b = sizes(&example("supplier_b.btf"), &[1, 9, 12, 18, 24, 27]);
    assert_eq!(
        b,
        [Exact(2), Exact(64), Exact(8), NoSize, Exact(16), Exact(16)]
    );
}

/// The compiler's table for a big-endian target: a pointer, the struct, its
/// enum, its union, an array, what is returned, a function, two variables.
#[test]
fn the_old_controller_is_big_endian() {
    use SizeAnswer::{Exact, NoSize};
    let old = example("old_controller.btf");
    assert_eq!(Order::of(&old), Order::Big);
    assert_eq!(
        sizes(&old, &[1, 3, 10, 11, 16, 19, 20, 23, 25]),
        [
            Exact(8),
            Exact(32),
            Exact(4),
            Exact(2),
            Exact(8),
            Exact(4),
            NoSize,
            Exact(32),
            Exact(2)
        ]
    );
    // The unsigned speed and the signed lean beside it.
    assert_eq!(name(&old, 19), (&b"speed"[..], false));
    assert_eq!(name(&old, 25), (&b"lean"[..], false));
    assert_eq!(gate(&joined(&old, &old)), Ok(54));
}

#[test]
fn joined_in_both_groupings() {
    let [x, y, z, _] = TABLES.map(example);
    let left = joined(&joined(&x, &y), &z);
    assert_eq!(left, joined(&x, &joined(&y, &z)));
    assert_eq!(gate(&left), Ok(2 + 37 + 33));
    assert_eq!(left.len(), x.len() + y.len() + z.len() - 50);
    // supplier B's blade keeps its size behind the other two tables
    assert_eq!(sizes(&left, &[2 + 37 + 9]), [SizeAnswer::Exact(64)]);
}

/// The line of tests/tables.stdout on one table.
fn line(name: &str, blob: &[u8]) -> String {
    let count = gate(blob).expect("accepted");
    let types: Vec<u32> = (1..=count).collect();
    let mut text = format!("{name}: accepted, {count} types, sizes");
    for size in sizes(blob, &types) {
        match size {
            SizeAnswer::Exact(bytes) => text += &format!(" {bytes}"),
            SizeAnswer::NoSize => text += " -",
            other => panic!("{other:?}"),
        }
    }
    text + "\n"
}

/// What the tool must say of them, by these rules: tests/launcher compares it.
#[test]
fn the_tool_agrees() {
    let mut text = String::new();
    for name in TABLES {
        text += &line(name, &example(name));
    }
    let [x, y, z, _] = TABLES.map(example);
    text += &line("three.btf", &joined(&joined(&x, &y), &z));
    let high = "old_controller.btf";
    text += &line(high, &example(high));
    let said = file("tests/tables.stdout");
    assert_eq!(String::from_utf8(said).expect("text"), text);
}

/// A module's table as it ships: its strings have no leading zero byte, and no
/// check of it alone accepts it.
#[test]
fn a_module_on_its_base() {
    use LeaningName::{InBase, InModule, Nowhere};
    use SizeAnswer::{Exact, NoSize};
    let (base, module) = (example("leaning/base.btf"), example("leaning/module.btf"));
    assert_eq!(gate(&base), Ok(16));
    assert_eq!(lean(&base, &module), Ok(22));
    assert_eq!(gate(&module), Err(Report::bare(5)));
    let (mut index, mut work) = ([9; 23], [9; 23]);
    assert_eq!(check_leaning(&base, &module, &mut index, &mut work), Ok(22));
    assert_eq!(index[15..19], [340, 368, 24, 60]);
    // A drum, the brake's union, the brake, a pointer to it and its function.
    let sizes = [7, 17, 18, 19, 22].map(|x| size_leaning(&base, 16, &module, &index, x));
    assert_eq!(sizes, [Exact(40), Exact(4), Exact(40), Exact(8), NoSize]);
    let names = [1, 157, 161, 162, 167, 199, 200].map(|x| name_leaning(&base, &module, x));
    let expected = [
        InBase(b"side"),
        InBase(b"turn"),
        InBase(b""),
        InModule(b"lean"),
        InModule(b"brake"),
        InModule(b""),
        Nowhere,
    ];
    assert_eq!(names, expected);
}
