//! Many settings by one call, beside the oracle's by value, and beside as many exported steps of Set messages that are
//! built beforehand. By value a display is copied in, back and into its place.
use crate::display::{ours, theirs, Lent, CODES};
use crate::measure::{line_of_three, three};
use ddcci::{Answer, Message, Request, MOST_SETTINGS};
use std::hint::black_box;

const CALLS: usize = 1_000;

/// So many settings: code and value. The last one is above the maximum, if it is not the only one.
fn settings(count: usize) -> (Vec<u8>, Vec<u16>) {
    let codes = (0..count).map(|i| (i * 7 % usize::from(CODES)) as u8).collect();
    let values = (0..count).map(|i| if i > 0 && i + 1 == count { 101 } else { i as u16 }).collect();
    (codes, values)
}

fn messages(codes: &[u8], values: &[u16]) -> Vec<Message> {
    codes.iter().zip(values).map(|(&code, &value)| Request::Set { code, value }.to_bytes().unwrap()).collect()
}

pub fn run() {
    let text = crate::capabilities::text(300);
    println!("{:<44} {:>13} {:>13}   ratio {:>12}", "", "Paneknoll", "by value", "as steps");
    for count in [MOST_SETTINGS, 8, 1] {
        let (codes, values) = settings(count);
        let messages = messages(&codes, &values);
        let (mut a, mut b, mut c) = (ours(&text), theirs(&text), ours(&text));
        let (mut x, mut y, mut z) = ([Answer::default(); MOST_SETTINGS], [0; MOST_SETTINGS], Lent::new());
        let times = three(
            CALLS,
            || a.set_all(black_box(&codes), black_box(&values), &mut x),
            || {
                let set = b.clone().set_all_by_value(black_box(&codes), black_box(&values), &mut y);
                b = set.0;
                set.1
            },
            || {
                for message in &messages {
                    let _ = black_box(c.step(&text, &mut z.table, black_box(message), &mut z.out).answer);
                }
            },
        );
        assert!(a == c && x.map(Answer::number) == y);
        line_of_three(&format!("settings in one call: {count}"), times);
    }
}
