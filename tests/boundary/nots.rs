//! Nots pushed down through the wrapper: every answer beside what document 02's A4 says.

use bromaveluth::{evaluate, nots, nots_pushed, Link, Refusal, Refused};

/// A sheet of two primitives, `ip` and `arp`, with these tokens.
fn sheet(tokens: &[u8]) -> Vec<u8> {
    let record = |p| {
        let mut bytes = [0; 24];
        (bytes[0], bytes[2]) = (7, p);
        bytes
    };
    let count = (tokens.len() as u16).to_be_bytes();
    [&[0, 0, 0, 2], &record(1)[..], &record(3), &count, tokens].concat()
}

fn refused(refusal: Refusal, place: usize) -> Result<usize, Refused> {
    Err(Refused { refusal, place })
}

#[test]
fn the_new_sheet_and_nothing_else() {
    let (old, new) = (sheet(&[3, 2, 0, 3, 0]), sheet(&[1, 3, 0, 0]));
    let mut output = [0xaa; 80];
    assert_eq!(nots(&old, &mut output), Ok(new.len()));
    assert_eq!(output[..new.len()], new);
    assert_eq!(output[new.len()..], [0xaa; 80][new.len()..]);
    assert_eq!(nots_pushed(&old), Ok(new.clone()));
    assert_eq!(nots_pushed(&new), Ok(new));
}

#[test]
fn refusals_leave_the_output() {
    let old = sheet(&[3, 1, 0, 0]);
    let mut output = [0xaa; 80];
    assert_eq!(nots(&old, &mut output[..old.len()]), refused(Refusal::Output, 0));
    assert_eq!(nots(&old[1..], &mut output), refused(Refusal::Length, 0));
    assert_eq!(nots(&sheet(&[3, 1, 0, 4]), &mut output), refused(Refusal::WrongByte, 57));
    assert_eq!(nots(&sheet(&[3, 1, 0]), &mut output), refused(Refusal::NotOneTree, 0));
    let deep = [vec![3; 255], vec![1, 0, 0]].concat();
    assert_eq!(nots(&sheet(&deep), &mut output), refused(Refusal::TooDeep, 0));
    assert_eq!(output, [0xaa; 80]);
}

#[test]
fn the_frames_are_the_same() {
    let old = sheet(&[3, 1, 0, 3, 0]);
    let new = nots_pushed(&old).unwrap();
    for ethertype in [[8, 0], [8, 6], [0x86, 0xdd]] {
        let mut frame = [0; 60];
        frame[12..14].copy_from_slice(&ethertype);
        assert_eq!(evaluate(&old, Link::Ethernet, &frame), evaluate(&new, Link::Ethernet, &frame));
    }
    assert_eq!(evaluate(&new, Link::Ethernet, &[0; 60]), Ok(true));
}

#[test]
fn the_words_of_50() {
    let told = Refused { refusal: Refusal::from_number(50).unwrap(), place: 0 };
    assert_eq!(told.to_string(), "refusal 50: the new tree needs more than 65,535 tokens");
    assert!(!told.refusal.is_of_file());
}
