//! The phone program (examples/phone.rs): the commands that it documents, what it refuses, and codes without spaces.
mod common;
use common::example;
use std::ffi::OsStr;
use std::fs;
use std::os::unix::ffi::OsStrExt;
use std::path::Path;
use std::process::Command;

/// Runs the program. Returns what it writes to standard output, and to standard error where it fails.
fn phone<A: AsRef<OsStr>>(arguments: &[A]) -> Result<String, String> {
    let output = Command::new(example("phone")).args(arguments).output().expect("the program runs");
    let text = |bytes| String::from_utf8(bytes).expect("it writes text");
    if output.status.success() {
        Ok(text(output.stdout))
    } else {
        Err(text(output.stderr))
    }
}

const REQUESTS: &str = "\
brightness to 80: [51, 84, 03, 10, 00, 50, F8]
input to HDMI 1: [51, 84, 03, 60, 00, 11, C9]
";

const STRING_SHOWS: &str = "\
prot: monitor
settings:
  02 new control value
  10 brightness
  12 contrast
  60 input: 0F 11
";

/// Each command in the program's comment is run by the shell, with the program itself for `cargo run --example phone
/// --`.
#[test]
fn the_documented_commands() {
    let source = fs::read_to_string(Path::new(env!("CARGO_MANIFEST_DIR")).join("examples/phone.rs")).unwrap();
    let prefix = "//!     cargo run --example phone -- ";
    let commands: Vec<&str> = source.lines().filter_map(|line| line.strip_prefix(prefix)).collect();
    let wanted = [STRING_SHOWS, "settings:\n  10 brightness\n"];
    assert_eq!(commands.len(), wanted.len());
    for (arguments, shows) in commands.iter().zip(wanted) {
        let command = format!("exec \"$0\" {arguments}");
        let output = Command::new("sh").arg("-c").arg(&command).arg(example("phone")).output().unwrap();
        assert_eq!(String::from_utf8_lossy(&output.stdout), [shows, REQUESTS].concat(), "{arguments}");
        assert!(output.stderr.is_empty() && output.status.success());
    }
}

#[test]
fn codes_without_spaces() {
    let shows = "\
settings:
  00 code page
  01 degauss
  08 restore colours
  10 brightness
  60 input: 0F 11
  12 contrast
  E0 of the maker's own
  101: no code
  xy: no code
";
    assert_eq!(phone(&["(vcp(0001081060(0F11)12E0 101 xy))"]), Ok([shows, REQUESTS].concat()));
}

#[test]
fn a_string_that_is_not_whole_is_not_shown() {
    let (first, second, end) = ("6E8BE3000028766370283130291B", "6E84E300082978", "6E83E3000957");
    let missing = "phone: the transfer is closed, its budget is used up: ";
    let refused = phone(&[first, second]).unwrap_err();
    assert_eq!(refused, format!("{missing}9 bytes came in 2 exchanges, and not the end of the text\n"));
    let refused = phone(&[first, first, end]).unwrap_err();
    let lines: Vec<&str> = refused.lines().collect();
    assert_eq!(lines[0], "phone: reply 2: refused 10: the offset or fragment is not the one wanted");
    assert_eq!(lines[2], format!("{missing}8 bytes came in 3 exchanges, and not the end of the text"));
    // a reply that comes twice is joined once
    assert_eq!(phone(&[first, first, second, end]), Ok(["settings:\n  10 brightness\n", REQUESTS].concat()));
}

#[test]
fn a_string_longer_than_its_room_is_not_shown() {
    let replies: Vec<String> = (0..129)
        .map(|i| {
            let reply = ddcci::Reply::TextFragment { offset: 32 * i, data: &[b' '; 32] }.to_bytes().unwrap();
            reply.iter().map(|byte| format!("{byte:02X}")).collect()
        })
        .collect();
    let refused = phone(&replies).unwrap_err();
    assert!(refused.starts_with("phone: reply 129: refused 11: "), "{refused}");
    assert!(refused.contains("the text is longer than its room: 4096 bytes came in 129 exchanges"), "{refused}");
}

#[test]
fn any_argument_gets_an_answer() {
    let refused = phone(&[OsStr::from_bytes(b"(v\xFFcp(10))")]).unwrap_err();
    assert_eq!(refused, "phone: refused 13 at 2: the capabilities string does not follow the grammar\n");
    assert!(phone(&[""])
        .unwrap_err()
        .ends_with("refused 13 at 0: the capabilities string does not follow the grammar\n"));
    assert!(phone(&["6E8"])
        .unwrap_err()
        .ends_with("refused 13 at 0: the capabilities string does not follow the grammar\n"));
    assert_eq!(phone(&["()"]), Ok(REQUESTS.into()));
}
