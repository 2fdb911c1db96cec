//! T-14's sentences about frames that we send, one by one, as both encoders have them.
//! Run: cargo test --offline --release -p oracle-driver

use oracle_driver::feed::{self, feed, ROOM};
use oracle_driver::send::send;
use oracle_driver::Refusal;

fn frame(message: &[u8]) -> Vec<u8> {
    let frame = send(message, usize::MAX).expect("room");
    assert_eq!(frame, feed::frame(message));
    frame
}

/// Messages of a length: no zeros, only zeros, and both.
fn messages(len: usize) -> [Vec<u8>; 4] {
    let mixed = |every: usize| (1..=len).map(|i| if i % every == 0 { 0 } else { (i % 255) as u8 + 1 }).collect();
    [vec![7; len], vec![0; len], mixed(5), mixed(300)]
}

#[test]
fn the_empty_message_is_01_00() {
    assert_eq!(frame(&[]), [1, 0]);
}

#[test]
fn no_01_group_after_a_final_full_ff_group() {
    let full = [7; 254];
    assert_eq!(frame(&full), [&[0xFF], &full[..], &[0]].concat());
    assert_eq!(frame(&[full, full].concat()), [&[0xFF], &full[..], &[0xFF], &full[..], &[0]].concat());
    // But after one that isn't final a zero is a group of its own.
    assert_eq!(frame(&[&full[..], &[0]].concat()), [&[0xFF], &full[..], &[1, 1, 0]].concat());
    assert_eq!(frame(&[&full[..], &[8]].concat()), [&[0xFF], &full[..], &[2, 8, 0]].concat());
}

#[test]
fn one_zero_and_the_message_again() {
    for len in 0..=2_100 {
        for message in messages(len) {
            let frame = frame(&message);
            assert_eq!(frame.iter().position(|&b| b == 0), Some(frame.len() - 1));
            let fed = feed(0, &[9; ROOM], &frame);
            let (number, right) = if frame.len() <= ROOM { (23, &message[..]) } else { (21, &[][..]) };
            assert_eq!((fed.no, &fed.message[..]), (number, right));
        }
    }
}

#[test]
fn twelve_exactly_if_the_frame_is_longer_than_the_output() {
    for message in [&[][..], &[0], &[7; 254], &[7; 255]] {
        let frame = frame(message);
        assert_eq!(send(message, frame.len()), Ok(frame.clone()));
        assert_eq!(send(message, frame.len() - 1), Err(Refusal { no: 12, place: 0 }));
    }
}
