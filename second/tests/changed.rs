//! A vector file of yesterday, read by the rules of today.

use second::changed::changed;
use second::generate::{edges, edges_joins};
use second::vectors::file;

#[test]
fn a_file_of_today_keeps_its_answers() {
    let cases = &edges::cases(true)[..200];
    let text = changed(&file(cases)).unwrap();
    assert_eq!(text, "0 of 200 answers changed\n");
}

#[test]
fn a_changed_answer_is_told() {
    let cases = &edges::cases(true)[..1];
    let mut old = file(cases);
    // The last seven numbers are the case's answer, its number first.
    let at = old.len() - 28;
    old[at] = 11;
    let text = changed(&old).unwrap();
    assert!(text.contains("op 1 check: 11 report -> op 1 check: "));
    assert!(text.ends_with("1 of 1 answers changed\n"));
}

/// The answer stays, but for its byte place, the fourth of the numbers.
#[test]
fn a_changed_place_is_told() {
    let bad = edges_joins::refused(10);
    let joined = edges_joins::call(&edges_joins::refused(0), &bad, 4, 0);
    let mut old = file(&[joined]);
    let at = old.len() - 28 + 12;
    assert_eq!(old[at], 64);
    old[at] = 0;
    let line = "op 4 join: 17 report with 10 inside";
    assert_eq!(
        changed(&old).unwrap(),
        format!("     1  {line} -> {line}, another p\n1 of 1 answers changed\n")
    );
}

#[test]
fn a_file_cut_short_is_told() {
    let whole = file(&edges::cases(true)[..3]);
    assert_eq!(changed(&whole[..whole.len() - 1]), Err(3));
    assert_eq!(changed(&whole[..7]), Err(0));
}
