//! The kit of document 01 gives exactly its six lines.

use model::{listing, machine_data, words};

/// A list with these data in form 0, else lowest.
fn list(data: &[(usize, i32)]) -> Vec<u32> {
    let mut list = vec![words::head(51)];
    for number in 0..51 {
        let stated = data.iter().find(|datum| datum.0 == number);
        let value = stated.map_or(machine_data::lowest(number), |datum| datum.1) as u32;
        list.extend([
            words::datum(number, 0),
            words::piece(value >> 16),
            words::piece(value),
        ]);
    }
    list
}

const LINES: &str = "1 00000081 00000081 1
2 03000081 03000081 7
3 03000081 03000081 7
4 0b000081 0b000081 7
5 04000081 04000081 9
6 05000085 05000085 a
";

fn kit() -> Vec<u8> {
    let list = list(&[
        (0, 12),
        (1, 1),
        (2, 10),
        (3, 2000),
        (7, 3),
        (29, 2),
        (32, 1),
    ]);
    let mut kit = [list.clone(), list].concat();
    for position in [0, 401, 401, 401, 412, 412] {
        kit.extend(words::record((position, 2), (position, 2), false));
    }
    kit.into_iter().flat_map(u32::to_be_bytes).collect()
}

#[test]
fn the_example_kit_gives_its_six_lines() {
    assert_eq!(listing::list(&kit()), LINES);
}

#[test]
fn a_lent_buffer_gets_the_same_text_or_stays_as_it_was() {
    let mut buffer = [7; 200];
    assert_eq!(listing::list_into(&kit(), &mut buffer), Ok(LINES.len()));
    assert_eq!(&buffer[..LINES.len()], LINES.as_bytes());
    assert!(buffer[LINES.len()..].iter().all(|&byte| byte == 7));
    let mut short = vec![7; LINES.len() - 1];
    assert_eq!(listing::list_into(&kit(), &mut short), Err(LINES.len()));
    assert!(short.iter().all(|&byte| byte == 7));
    let mut exact = vec![7; LINES.len()];
    assert_eq!(listing::list_into(&kit(), &mut exact), Ok(LINES.len()));
}
