//! Lists read and written for the tests: what may not change must not.

use second::{read_list, write_list, ListRefusal, Report};

/// The table of a list, or the number of the refusal, with slices of 400 bytes
/// and 40 places.
pub fn table(list: &[u8]) -> Result<Vec<u8>, u32> {
    read(list, [40, 40], [400, 400])
}

/// The same with so many places and bytes: what may not change must not, and
/// what is cleared is.
pub fn read(list: &[u8], places: [usize; 2], bytes: [usize; 2]) -> Result<Vec<u8>, u32> {
    let [mut index, mut work] = places.map(|places| vec![7; places]);
    let [mut output, mut byte_work] = bytes.map(|bytes| vec![165; bytes]);
    let answer = read_list(list, &mut index, &mut work, &mut byte_work, &mut output);
    let length = answer.unwrap_or(0);
    assert!(output[length..].iter().all(|byte| *byte == 165));
    assert!(byte_work.iter().all(|byte| *byte == 0));
    assert!(work.iter().all(|place| *place == 0));
    output.truncate(length);
    if answer.is_ok() {
        let [mut checked, mut cleared] = places.map(|places| vec![7; places]);
        assert!(second::check(&output, &mut checked, &mut cleared).is_ok());
        assert_eq!(index, checked);
    } else {
        assert!(index.iter().all(|place| *place == 0));
    }
    answer.map(|_| output).map_err(|refusal| refusal.number())
}

pub fn list(blob: &[u8]) -> Result<Vec<u8>, ListRefusal> {
    // A record has twelve bytes, and a field three more.
    let places = blob.len() / 12 + 1;
    let (mut index, mut work) = (vec![7; places], vec![7; places]);
    let mut output = vec![165; 2 * blob.len()];
    let length = write_list(blob, &mut index, &mut work, &mut output)?;
    assert!(output[length..].iter().all(|byte| *byte == 165));
    output.truncate(length);
    Ok(output)
}

pub fn inside(list: &[u8]) -> Report {
    let (mut index, mut work) = (vec![7; 40], vec![7; 40]);
    let (mut output, mut byte_work) = (vec![0; 400], vec![0; 400]);
    let answer = read_list(list, &mut index, &mut work, &mut byte_work, &mut output);
    let refusal = answer.expect_err("refused");
    assert_eq!(refusal.number(), 54);
    refusal.inner().expect("a report inside")
}

/// Fields by hand: tag and bytes.
pub fn fields(all: &[(u8, &[u8])]) -> Vec<u8> {
    let mut list = Vec::new();
    for (tag, bytes) in all {
        let length = bytes.len() as u16;
        list.extend([*tag, length as u8, (length >> 8) as u8]);
        list.extend(*bytes);
    }
    list
}

/// A pointer to void, in either order.
pub const PTR: [u8; 12] = [0, 0, 0, 0, 0, 0, 0, 2, 0, 0, 0, 0];
pub const BIG_PTR: [u8; 12] = [0, 0, 0, 0, 2, 0, 0, 0, 0, 0, 0, 0];
