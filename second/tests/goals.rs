//! What a run's times say of the goals of request 13.

use second::goals::{ratio_to_nested, verdicts, Row, Sort};

/// The archive's and the tuned checker's microseconds.
fn row(title: &'static str, sort: Sort, bytes: usize, archive: f64, tuned: f64) -> Row {
    Row {
        title,
        sort,
        types: 1,
        bytes,
        archive,
        tuned,
        plain: 1.0,
    }
}

fn rows(there: f64, back: f64, slow: f64, grown: f64) -> Vec<Row> {
    vec![
        row("there", Sort::Nested, 65_536, there, 10.0),
        row("there", Sort::Nested, 262_144, 4.0 * there, 40.0),
        row("back", Sort::Nested, 65_536, back, 10.0),
        row("long", Sort::Slow, 65_536, slow, 1.0),
        row("long", Sort::Slow, 262_144, grown * slow, 1.0),
        row("ring", Sort::Slow, 65_536, 1.0, 1.0),
        row("else", Sort::Other, 65_536, 900.0, 1.0),
        row("else", Sort::Other, 262_144, 900.0, 1.0),
    ]
}

#[test]
fn all_are_met_at_their_edges() {
    let text = verdicts(&rows(10.0, 10.0, 40.0, 4.0));
    assert_eq!(text.lines().count(), 4);
    assert!(
        text.lines().all(|line| line.ends_with("**met**.")),
        "{text}"
    );
}

/// The worse direction decides goals 1 and 2, the slowest table goal 3 and the
/// one that grows most goal 4.
#[test]
fn each_is_missed_by_itself() {
    let missed = |rows: &[Row]| {
        let text = verdicts(rows);
        let lines = text.lines().zip(1..);
        let not = lines.filter(|(line, _)| line.ends_with("**not met**."));
        not.map(|(_, goal)| goal).collect::<Vec<u32>>()
    };
    assert_eq!(missed(&rows(10.0, 10.1, 40.0, 4.0)), [2]);
    assert_eq!(missed(&rows(10.0, 20.1, 40.0, 4.0)), [1, 2]);
    assert_eq!(missed(&rows(10.0, 10.0, 41.0, 4.0)), [3]);
    assert_eq!(missed(&rows(10.0, 10.0, 30.0, 4.31)), [4]);
    assert_eq!(missed(&rows(10.0, 10.0, 40.0, 4.2)), [3]);
}

#[test]
fn what_decides_is_named() {
    let text = verdicts(&rows(10.0, 15.0, 50.0, 4.4));
    let lines: Vec<&str> = text.lines().collect();
    assert!(lines[0].contains(": 1.00 (there), 1.50 (back); **met**"));
    assert!(lines[2].contains(": 5.50 (long, 262,144 bytes); **not met**"));
    assert!(lines[3].contains(": 4.40 (long); **not met**"));
}

#[test]
fn a_length_without_a_nested_table_has_no_ratio() {
    let rows = rows(10.0, 20.0, 50.0, 4.0);
    assert_eq!(ratio_to_nested(&rows, &rows[3]), Some(5.0));
    let other = row("short", Sort::Other, 1_164, 1.0, 1.0);
    assert_eq!(ratio_to_nested(&rows, &other), None);
}
