//! Whole transfers of 1,024 and 4,096 bytes in fragments of 32: asking, and receiving replies that are built
//! beforehand. Either side's caller looks at the answer to each request and each reply.
use crate::measure::{both, line};
use ddcci::{Message, Reply, State, TextKind, Transfer};
use oracle::transfer as slow;
use oracle::Text;
use std::hint::black_box;

fn replies(length: usize) -> Vec<Message> {
    let text: Vec<u8> = (0..length).map(|i| i as u8).collect();
    (0..=length / 32)
        .map(|i| {
            let at = i * 32;
            Reply::TableFragment { offset: at as u16, data: &text[at..(at + 32).min(length)] }.to_bytes().unwrap()
        })
        .collect()
}

fn ours(replies: &[Message], buffer: &mut [u8]) -> u16 {
    let mut transfer = Transfer::begin(TextKind::Table, buffer, 65_535).unwrap();
    let mut out = [0; 38];
    for reply in replies {
        transfer.write_request(black_box(&mut out)).unwrap();
        transfer.receive(black_box(reply)).unwrap();
    }
    assert_eq!(transfer.state(), State::Done);
    transfer.count()
}

#[inline(never)]
fn ask(transfer: &slow::Transfer, out: &mut [u8]) -> (u8, usize) {
    transfer.request(out)
}

#[inline(never)]
fn offer(transfer: &mut slow::Transfer, buffer: &mut [u8], reply: &[u8]) -> u8 {
    transfer.receive(buffer, reply)
}

fn theirs(replies: &[Message], buffer: &mut [u8]) -> usize {
    let (_, mut transfer) = slow::Transfer::begin(Text::Table, buffer.len(), 65_535);
    let mut out = [0; 38];
    for reply in replies {
        assert_eq!(ask(&transfer, black_box(&mut out)).0, 0);
        assert_eq!(offer(&mut transfer, buffer, black_box(reply)), 0);
    }
    assert_eq!(transfer.state(), slow::State::Done);
    transfer.count()
}

pub fn run() {
    for length in [1024, 4096] {
        let replies = replies(length);
        let (mut a, mut b) = (vec![0; length], vec![0; length]);
        line(
            &format!("transfer of {length} bytes"),
            both(2_000_000 / length, || ours(&replies, &mut a), || theirs(&replies, &mut b)),
        );
    }
}
