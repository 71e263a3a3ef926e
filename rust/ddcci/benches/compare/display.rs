//! A step of the display for each message, beside the oracle's by value and by `&mut`. By value a display is copied
//! in, back and into its place.
use crate::measure::{line_of_three, three};
use ddcci::{Declaration, Display, Request, Timing, OUTPUT_ROOM, TABLE_ROOM};
use oracle::display as slow;
use oracle::settings as slow_settings;
use std::hint::black_box;

const CALLS: usize = 10_000;
const SIZE: u16 = 31;
pub const CODES: u8 = 40;

pub struct Lent {
    pub table: [u8; TABLE_ROOM],
    pub out: [u8; OUTPUT_ROOM],
}

impl Lent {
    pub fn new() -> Lent {
        Lent { table: [0; TABLE_ROOM], out: [0; OUTPUT_ROOM] }
    }
}

pub fn ours(text: &[u8]) -> Display {
    let mut display = Display::start(Timing::default(), text, SIZE).unwrap();
    for code in 0..CODES {
        let (maximum, present) = (100, 50);
        display
            .declare(Declaration { code, readable: true, writable: true, kind: 0, continuous: true, maximum, present })
            .unwrap();
    }
    display
}

pub fn theirs(text: &[u8]) -> slow::Display {
    let (_, mut display) = slow::Display::start(slow::Timing::default(), text, SIZE.into());
    for code in 0..CODES {
        let (maximum, present) = (100, 50);
        display.declare(slow_settings::Declaration {
            code,
            readable: true,
            writable: true,
            kind: 0,
            continuous: true,
            maximum,
            present,
        });
    }
    display
}

// Both sides stand behind one call that is not inlined, as a library's functions do.

#[inline(never)]
fn by_value(
    mut display: slow::Display,
    text: &[u8],
    table: &mut [u8],
    message: &[u8],
    out: &mut [u8],
) -> (slow::Display, u8, usize) {
    let (answer, length) = display.step(text, table, message, out);
    (display, answer, length)
}

#[inline(never)]
fn in_place(display: &mut slow::Display, text: &[u8], table: &mut [u8], message: &[u8], out: &mut [u8]) -> (u8, usize) {
    display.step(text, table, message, out)
}

pub fn run() {
    let text = crate::capabilities::text(300);
    let data: Vec<u8> = (0..31).collect();
    let requests = [
        ("Get", Request::Get { code: 0x10 }),
        ("Set", Request::Set { code: 0x10, value: 100 }),
        ("Timing", Request::Timing),
        ("Save", Request::Save),
        ("Text", Request::Text { offset: 0 }),
        ("Table write of 31", Request::TableWrite { code: 0xF4, offset: 0, data: &data }),
        ("Table read", Request::TableRead { code: 0xF4, offset: 0 }),
    ];
    println!("{:<44} {:>13} {:>13}   ratio {:>12}", "", "Paneknoll", "by value", "by &mut");
    let (mut a, mut b, mut c) = (ours(&text), theirs(&text), theirs(&text));
    let (mut x, mut y, mut z) = (Lent::new(), Lent::new(), Lent::new());
    for (name, request) in &requests {
        let message = request.to_bytes().unwrap();
        let times = three(
            CALLS,
            || a.step(&text, &mut x.table, black_box(&message), &mut x.out).length,
            || {
                let stepped = by_value(b.clone(), &text, &mut y.table, black_box(&message), &mut y.out);
                b = stepped.0;
                (stepped.1, stepped.2)
            },
            || in_place(&mut c, &text, &mut z.table, black_box(&message), &mut z.out),
        );
        assert!(x.out == y.out && x.table == y.table);
        line_of_three(&format!("display step {name}"), times);
    }
}
