//! Reading and building each of the twelve messages.
use crate::measure::{both, line};
use ddcci::{Reply, Request, OUTPUT_ROOM};
use oracle::message as slow;
use std::hint::black_box;

const CALLS: usize = 20_000;

pub fn run() {
    let data: Vec<u8> = (0..32).collect();
    let requests = [
        ("Get", Request::Get { code: 0x10 }),
        ("Set", Request::Set { code: 0x10, value: 100 }),
        ("Timing", Request::Timing),
        ("Save", Request::Save),
        ("Text", Request::Text { offset: 64 }),
        ("Table read", Request::TableRead { code: 0xF4, offset: 64 }),
        ("Table write of 31", Request::TableWrite { code: 0xF4, offset: 64, data: &data[..31] }),
    ];
    let replies = [
        ("Value", Reply::Value { result: 0, code: 0x10, kind: 0, max: 100, present: 50 }),
        ("Timing reply", Reply::Timing { status: 2, horizontal: 13340, vertical: 6000 }),
        ("Null", Reply::Null),
        ("Text fragment of 32", Reply::TextFragment { offset: 64, data: &data }),
        ("Table fragment of 32", Reply::TableFragment { offset: 64, data: &data }),
    ];
    let mut sum = (0.0, 0.0);
    for (name, m) in &requests {
        let t = read_request(&m.to_bytes().unwrap());
        line(&format!("read {name}"), t);
        sum = (sum.0 + t.0, sum.1 + t.1);
    }
    for (name, m) in &replies {
        let t = read_reply(&m.to_bytes().unwrap());
        line(&format!("read {name}"), t);
        sum = (sum.0 + t.0, sum.1 + t.1);
    }
    line("reading, all twelve", sum);
    sum = (0.0, 0.0);
    for (name, m) in &requests {
        let t = build_request(m);
        line(&format!("build {name}"), t);
        sum = (sum.0 + t.0, sum.1 + t.1);
    }
    for (name, m) in &replies {
        let t = build_reply(m);
        line(&format!("build {name}"), t);
        sum = (sum.0 + t.0, sum.1 + t.1);
    }
    line("building, all twelve", sum);
}

// Both sides stand behind one call that is not inlined, as a library's functions do.

#[inline(never)]
fn their_request(bytes: &[u8]) -> Result<slow::Request<'_>, u8> {
    slow::read_request(bytes)
}

#[inline(never)]
fn their_reply(bytes: &[u8]) -> Result<slow::Reply<'_>, u8> {
    slow::read_reply(bytes)
}

#[inline(never)]
fn build_their_request(m: &slow::Request, out: &mut [u8]) -> Result<usize, u8> {
    m.build(out)
}

#[inline(never)]
fn build_their_reply(m: &slow::Reply, out: &mut [u8]) -> Result<usize, u8> {
    m.build(out)
}

fn read_request(bytes: &[u8]) -> (f64, f64) {
    both(CALLS, || Request::read(black_box(bytes)), || their_request(black_box(bytes)))
}

fn read_reply(bytes: &[u8]) -> (f64, f64) {
    both(CALLS, || Reply::read(black_box(bytes)), || their_reply(black_box(bytes)))
}

fn build_request(m: &Request) -> (f64, f64) {
    let theirs = match *m {
        Request::Get { code } => slow::Request::Get { code },
        Request::Set { code, value } => slow::Request::Set { code, value },
        Request::Timing => slow::Request::Timing,
        Request::Save => slow::Request::Save,
        Request::Text { offset } => slow::Request::Capabilities { offset },
        Request::TableRead { code, offset } => slow::Request::TableRead { code, offset },
        Request::TableWrite { code, offset, data } => slow::Request::TableWrite { code, offset, data },
    };
    let (mut a, mut b) = ([0; OUTPUT_ROOM], [0; OUTPUT_ROOM]);
    both(CALLS, || black_box(m).build(black_box(&mut a)), || build_their_request(black_box(&theirs), black_box(&mut b)))
}

fn build_reply(m: &Reply) -> (f64, f64) {
    let (mut a, mut b) = ([0; OUTPUT_ROOM], [0; OUTPUT_ROOM]);
    let theirs = match *m {
        Reply::Value { result, code, kind, max, present } => {
            slow::Reply::Value { result, code, kind, maximum: max, present }
        }
        Reply::Timing { status, horizontal, vertical } => slow::Reply::Timing { status, horizontal, vertical },
        Reply::TextFragment { offset, data } => slow::Reply::Capabilities { offset, data },
        Reply::TableFragment { offset, data } => slow::Reply::Table { offset, data },
        Reply::Null => {
            return both(CALLS, || Reply::Null.build(black_box(&mut a)), || slow::build_null(black_box(&mut b)));
        }
    };
    both(CALLS, || black_box(m).build(black_box(&mut a)), || build_their_reply(black_box(&theirs), black_box(&mut b)))
}
