//! Times of the oracle's functions, one thread, best of several rounds.

use std::hint::black_box;
use std::time::Instant;

use oracle::call_list;
use oracle::capabilities;
use oracle::display::{Display, Timing};
use oracle::message::*;
use oracle::profile;
use oracle::profile_comparison;
use oracle::settings::{Declaration, Settings};
use oracle::transfer::{State, Transfer};
use oracle::{Text, SETTING_LIMIT, TABLE_CODE, TABLE_LIMIT};

/// Prints the nanoseconds of one call, the best of ten rounds.
fn time(name: &str, calls: u32, mut call: impl FnMut()) {
    let mut best = f64::INFINITY;
    for _ in 0..10 {
        let start = Instant::now();
        for _ in 0..calls {
            call();
        }
        best = best.min(start.elapsed().as_nanos() as f64 / f64::from(calls));
    }
    println!("{name:<44}{best:>12.1} ns");
}

fn messages() {
    let mut out = [0; 38];
    let data = [0x41; 32];
    let many = 200_000;
    time("build get", many, || {
        let _ = black_box(build_get(black_box(0x10), black_box(&mut out)));
    });
    time("build set", many, || {
        let _ = black_box(build_set(black_box(0x10), 100, black_box(&mut out)));
    });
    time("build value", many, || {
        let _ = black_box(build_value(0, black_box(0x10), 0, 100, 50, black_box(&mut out)));
    });
    time("build table write, 31 bytes", many, || {
        let data = black_box(&data[..31]);
        let _ = black_box(build_table_write(TABLE_CODE, 0, data, black_box(&mut out)));
    });
    time("build fragment, 32 bytes", many, || {
        let data = black_box(&data[..]);
        let _ = black_box(build_table_read_reply(0, data, black_box(&mut out)));
    });
    let get = [0x51, 0x82, 0x01, 0x10, 0xAC];
    time("read request, get", many, || {
        let _ = black_box(read_request(black_box(&get)));
    });
    let n = build_table_write(TABLE_CODE, 0, &data[..31], &mut out).expect("built");
    time("read request, table write of 31", many, || {
        let _ = black_box(read_request(black_box(&out[..n])));
    });
    let value = [0x6E, 0x88, 0x02, 0x00, 0x10, 0x00, 0x00, 0x64, 0x00, 0x32, 0xF2];
    time("read reply, value", many, || {
        let _ = black_box(read_reply(black_box(&value)));
    });
    let n = build_table_read_reply(0, &data, &mut out).expect("built");
    time("read reply, fragment of 32", many, || {
        let _ = black_box(read_reply(black_box(&out[..n])));
    });
}

fn capabilities_strings() {
    let mut starts = [0; 512];
    let mut lengths = [0; 512];
    let mut parents = [0; 512];
    let mut groups = [0; 512];
    let typical = b"(prot(monitor)type(lcd)model(RD280UA)cmds(01 02 03 07 0C E3 F3)\
        vcp(02 04 05 08 10 12 14(04 05 08 0B) 16 18 1A 52 60(0F 11 13) 62 72(50 64 78 8C A0) \
        87 8A 8D(01 02) AC AE B2 B6 C6 C8 C9 CA CC(01 02 03 04 05 06 08 09 0A 0B 0D 12 14 1A 1E) \
        D6(01 04 05) DC(00 0A 0F 12 1F 30 31 32) DF)mswhql(1)asset_eep(40)mccs_ver(2.2))";
    // Just under both limits, 4,096 bytes and 512 nodes.
    let mut long = b"(".to_vec();
    while long.len() < 4000 {
        long.extend(b"abcdefghijkl(hijklmnopqrstu(10 14(05 08)0C)opqrstuvwxyz123456)vwxyz123456 ");
    }
    long.push(b')');
    for (name, text) in [("typical", &typical[..]), ("long", &long[..])] {
        let nodes = capabilities::judge(text, 512).expect("accepted");
        let bytes = text.len();
        let title = |what: &str| format!("{what}, {name}: {bytes} bytes, {nodes} nodes");
        time(&title("read"), 2000, || {
            let _ =
                black_box(capabilities::read(black_box(text), &mut starts, &mut lengths, &mut parents, &mut groups));
        });
        time(&title("one pass"), 2000, || {
            let _ = black_box(capabilities::read_one_pass(
                black_box(text),
                &mut starts,
                &mut lengths,
                &mut parents,
                &mut groups,
            ));
        });
    }
}

fn all_codes() -> Settings {
    let mut settings = Settings::new();
    for code in 0..=255 {
        settings.declare(Declaration {
            code,
            readable: true,
            writable: true,
            kind: 0,
            continuous: true,
            maximum: 100,
            present: 50,
        });
    }
    settings
}

fn displays() {
    let text = [0x61; 4096];
    let (_, mut display) = Display::start(Timing::default(), &text, 32);
    display.settings = all_codes();
    let mut table = [0x62; TABLE_LIMIT];
    let mut out = [0; 38];
    let many = 200_000;
    let mut request = [0; 38];
    let steps: [(&str, Result<usize, u8>, [u8; 38]); 5] = [
        ("get", build_get(0x10, &mut request), request),
        ("set", build_set(0x10, 7, &mut request), request),
        ("save", build_save(&mut request), request),
        ("text", build_capabilities(0, &mut request), request),
        ("table write of 31", build_table_write(TABLE_CODE, 0, &[5; 31], &mut request), request),
    ];
    for (name, built, message) in steps {
        let message = &message[..built.expect("built")];
        time(&format!("step, {name}"), many, || {
            let _ = black_box(display.step(&text, &mut table, black_box(message), &mut out));
        });
        let mut held = Some(display.clone());
        time(&format!("step by value, {name}"), many, || {
            if let Some(display) = held.take() {
                let (display, ..) = black_box(display.step_by_value(&text, &mut table, black_box(message), &mut out));
                held = Some(display);
            }
        });
    }
    time("number declared", many, || {
        black_box(black_box(&display).number_declared());
    });
    time("all declared codes by next", 2000, || {
        let mut from = 0;
        while let Some(code) = black_box(&display).next_declared(from) {
            from = u16::from(black_box(code)) + 1;
        }
    });
}

fn many_settings() {
    let (_, mut display) = Display::start(Timing::default(), &[], 32);
    display.settings = all_codes();
    let codes: [u8; SETTING_LIMIT] = std::array::from_fn(|place| place as u8);
    let values = [7; SETTING_LIMIT];
    let mut answers = [0; SETTING_LIMIT];
    time("64 settings in one call", 20_000, || {
        black_box(display.set_all(black_box(&codes), black_box(&values), &mut answers));
    });
    let mut held = Some(display);
    time("64 settings in one call by value", 20_000, || {
        if let Some(display) = held.take() {
            let (display, _) = black_box(display.set_all_by_value(black_box(&codes), black_box(&values), &mut answers));
            held = Some(display);
        }
    });
}

fn transfers() {
    let text: Vec<u8> = (0..4096u32).map(|byte| byte as u8).collect();
    for size in [32, 1] {
        let (_, mut display) = Display::start(Timing::default(), &text, size);
        let mut table = [0; TABLE_LIMIT];
        let mut buffer = vec![0; 4096];
        time(&format!("transfer of 4,096 bytes, fragments of {size}"), 20, || {
            let (_, mut transfer) = Transfer::begin(Text::Capabilities, 4096, 65_535);
            let (mut request, mut reply) = ([0; 38], [0; 38]);
            while transfer.state() == State::Open {
                let (_, n) = transfer.request(&mut request);
                let (_, n) = display.step(&text, &mut table, black_box(&request[..n]), &mut reply);
                transfer.receive(&mut buffer, black_box(&reply[..n]));
            }
            assert_eq!(transfer.state(), State::Done);
        });
        assert_eq!(buffer, text);
    }
    let mut reply = [0; 38];
    let n = build_table_read_reply(0, &[7; 32], &mut reply).expect("built");
    let (_, fresh) = Transfer::begin(Text::Table, 1024, 65_535);
    let mut buffer = [0; 1024];
    time("receive one fragment of 32", 200_000, || {
        let mut transfer = black_box(fresh);
        black_box(transfer.receive(&mut buffer, black_box(&reply[..n])));
    });
}

fn profiles() {
    let mut settings = all_codes();
    let mut out = [0; 255 * 7];
    time("write a profile of 255 codes", 5000, || {
        let _ = black_box(profile::write(black_box(&settings), &mut out));
    });
    time("load a profile of 255 codes", 5000, || {
        let _ = black_box(profile::load(&mut settings, black_box(&out)));
    });
}

fn call_lists() {
    for records in [85, 8] {
        let list: Vec<u8> = (0..records)
            .flat_map(|i: u32| [[10, 0, 32, 0], (101 + i).to_le_bytes(), (2000 + i * 31 % 85).to_le_bytes()].concat())
            .collect();
        time(&format!("judge a call list of {records}"), 5000, || {
            let _ = black_box(call_list::judge(black_box(&list)));
        });
        time(&format!("check a call list of {records}, entries kept"), 5000, || {
            let _ = black_box(call_list::check(black_box(&list)));
        });
    }
}

fn compared_profiles() {
    let profile = |high| (0..=255).flat_map(|code| [5, 0, 1, 0, code, code, high]).collect::<Vec<u8>>();
    let (first, other) = (profile(0), profile(1));
    let (mut codes, mut values, mut others) = ([0; 256], [0; 256], [0; 256]);
    for (what, second) in [("the same", &first), ("all differ", &other)] {
        time(&format!("two profiles of 256 codes, {what}"), 2000, || {
            let (first, second) = (black_box(&first), black_box(second));
            let _ = black_box(profile_comparison::compare(first, second, &mut codes, &mut values, &mut others));
        });
    }
}

fn main() {
    messages();
    capabilities_strings();
    displays();
    many_settings();
    transfers();
    profiles();
    call_lists();
    compared_profiles();
}
