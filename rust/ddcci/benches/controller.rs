//! What a step of the display and a call of many settings cost beside time: the bytes that they copy, and the stack
//! that a call takes.
//!
//! `cargo bench --bench controller` prints both. No test holds them: they are the compiler's, and change with it.
#[path = "../tests/common/mod.rs"]
mod common;
use common::{compiled_as, program, repository, written_by, C17};
use std::io::Write;
use std::path::{Path, PathBuf};
use std::process::{Command, Stdio};

const DISPLAY: &str = "target/staticlib/libddcci_display.a";
const C17_WITH_GNU: &[&str] = &["cc", "-std=gnu17"];

fn c_file(name: &str) -> PathBuf {
    repository().join("c").join(name)
}

const MESSAGES: [(&str, &[u8]); 11] = [
    ("get", &[0x51, 0x82, 0x01, 0x10, 0xAC]),
    ("get of an undeclared code", &[0x51, 0x82, 0x01, 0x12, 0xAE]),
    ("set", &[0x51, 0x84, 0x03, 0x10, 0x00, 0x64, 0xCC]),
    ("set above the maximum", &[0x51, 0x84, 0x03, 0x10, 0x00, 0x65, 0xCD]),
    ("set of an undeclared code", &[0x51, 0x84, 0x03, 0x12, 0x00, 0x01, 0xAB]),
    ("save", &[0x51, 0x81, 0x0C, 0xB2]),
    ("timing", &[0x51, 0x81, 0x07, 0xB9]),
    ("text, with 5 bytes of data", &[0x51, 0x83, 0xF3, 0x00, 0x00, 0x4F]),
    ("table write, with a byte of data", &[0x51, 0x85, 0xE7, 0xF4, 0x00, 0x00, 0x41, 0xE8]),
    ("table read", &[0x51, 0x84, 0xE2, 0xF4, 0x00, 0x00, 0xAD]),
    ("wrong checksum", &[0x51, 0x82, 0x01, 0x10, 0x00]),
];

fn record(kind: u8, body: &[u8]) -> Vec<u8> {
    let length = u16::try_from(body.len()).expect("a record is short").to_le_bytes();
    [&[kind], length.as_slice(), body].concat()
}

/// The record of 64 settings: brightness 37 to 100.
fn settings() -> Vec<u8> {
    record(6, &(37..=100).flat_map(|value| [0x10, value, 0]).collect::<Vec<u8>>())
}

/// Returns the bytes that `display_pipe` copies from its start to its end, for a display with a code and so many
/// equal records.
fn copied(counter: &Path, same: &[u8], times: usize) -> usize {
    let start = record(1, b"\x02\x1C\x34\x70\x17\x05\x00(vcp(10 F4))");
    let declare = record(2, &[0x10, 1, 1, 0, 1, 100, 0, 50, 0]);
    let input = [start, declare, same.repeat(times)].concat();
    let mut child = Command::new(program("display_pipe"))
        .env("LD_PRELOAD", counter)
        .stdin(Stdio::piped())
        .stdout(Stdio::null())
        .stderr(Stdio::piped())
        .spawn()
        .expect("the display program starts");
    child.stdin.take().expect("its input is a pipe").write_all(&input).expect("it reads");
    let output = child.wait_with_output().expect("it ends");
    let said = String::from_utf8(output.stderr).expect("it writes text");
    said.trim().parse().expect("the counter writes a number")
}

fn main() {
    println!("bytes given to memcpy and memmove inside ddcci_display_step, and inside ddcci_display_set_all:");
    let wrapped = compiled_as(C17, &c_file("copies.c"), &[DISPLAY, "-Wl,--wrap=memcpy,--wrap=memmove"]);
    print!("{}", written_by(&wrapped));

    const TIMES: usize = 10;
    println!("\nthe same in display_pipe, from reading a record to writing its answer:");
    let counter = compiled_as(C17, &c_file("counted.c"), &["-shared", "-fPIC"]);
    let messages = MESSAGES.map(|(what, message)| (what, record(3, message)));
    for (what, same) in messages.into_iter().chain([("64 settings in one record", settings())]) {
        println!("{what}: {}", (copied(&counter, &same, TIMES) - copied(&counter, &same, 0)) / TIMES);
    }

    println!("\nbytes of stack of a call, with its caller's copies:");
    print!("{}", written_by(&compiled_as(C17_WITH_GNU, &c_file("stack.c"), &[DISPLAY, "-Wl,-z,now"])));
}
