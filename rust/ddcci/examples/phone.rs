//! What a phone program does: reads a display's capabilities string, shows its settings by name, and builds two
//! requests.
//!
//!     cargo run --example phone -- '(prot(monitor)vcp(02 10 12 60(0F 11)))'
//!     cargo run --example phone -- 6E8BE3000028766370283130291B 6E84E300082978 6E83E3000957
//!
//! Give the string itself, or the display's replies in hex as they came, one an exchange. The last reply is the empty
//! fragment that ends the string: without it the string is not whole, and nothing of it is shown.
use std::ffi::OsString;
use std::os::unix::ffi::OsStringExt;
use std::process::ExitCode;

use ddcci::{Capabilities, Node, Nodes, Refusal, Request, TextKind, Transfer};

const EXAMPLE: &[u8] = b"(prot(monitor)type(LCD)vcp(02 04 10 12 14(05 08) 60(0F 11) 62 D6))";

/// The settings of MCCS that a phone shows.
const NAMES: &[(u8, &str)] = &[
    (0x00, "code page"),
    (0x01, "degauss"),
    (0x02, "new control value"),
    (0x04, "restore factory defaults"),
    (0x05, "restore brightness and contrast"),
    (0x08, "restore colours"),
    (0x10, "brightness"),
    (0x12, "contrast"),
    (0x14, "colour preset"),
    (0x16, "red gain"),
    (0x18, "green gain"),
    (0x1A, "blue gain"),
    (0x52, "active control"),
    (0x60, "input"),
    (0x62, "volume"),
    (0x6C, "red black level"),
    (0x6E, "green black level"),
    (0x70, "blue black level"),
    (0x87, "sharpness"),
    (0x8D, "mute"),
    (0xAC, "horizontal frequency"),
    (0xAE, "vertical frequency"),
    (0xB2, "sub-pixel layout"),
    (0xB6, "display technology"),
    (0xC6, "application enable key"),
    (0xC8, "display controller"),
    (0xC9, "firmware level"),
    (0xCC, "menu language"),
    (0xD6, "power mode"),
    (0xDC, "display application"),
    (0xDF, "MCCS version"),
];

/// Returns the name of a code; MCCS leaves E0 and above to the makers.
fn name(code: u8) -> &'static str {
    let other = if code >= 0xE0 { "of the maker's own" } else { "not named here" };
    NAMES.iter().find(|(known, _)| *known == code).map_or(other, |(_, name)| name)
}

/// Returns the bytes that hex digits stand for, two digits each; `None` for anything else.
fn bytes_of_hex(word: &[u8]) -> Option<Vec<u8>> {
    if word.is_empty() || !word.len().is_multiple_of(2) || !word.iter().all(u8::is_ascii_hexdigit) {
        return None;
    }
    let digits = std::str::from_utf8(word).ok()?;
    (0..digits.len()).step_by(2).map(|i| u8::from_str_radix(&digits[i..i + 2], 16).ok()).collect()
}

/// Returns the string that a display's replies bring, joined by a transfer; an error where they do not bring it
/// whole.
fn joined(replies: &[Vec<u8>]) -> Result<Vec<u8>, String> {
    let mut buffer = vec![0; 4096];
    let mut transfer =
        Transfer::begin(TextKind::Capabilities, &mut buffer, replies.len()).map_err(|refusal| refusal.to_string())?;
    for (i, reply) in replies.iter().enumerate() {
        if let Err(refusal) = transfer.receive(reply) {
            eprintln!("phone: reply {}: {refusal}", i + 1);
        }
    }
    transfer.finish().map(<[u8]>::to_vec).map_err(|unfinished| unfinished.to_string())
}

/// Returns the words of a group, parted by spaces. Some displays write bytes without spaces between: these are
/// parted.
fn words(all: &Capabilities<'_>, of: &Node<'_>) -> String {
    let mut words: Vec<String> = vec![];
    for node in all.children(Some(of)) {
        match bytes_of_hex(node.word) {
            Some(bytes) => words.extend(bytes.iter().map(|byte| format!("{byte:02X}"))),
            None => words.push(String::from_utf8_lossy(node.word).into_owned()),
        }
    }
    words.join(" ")
}

/// Writes a line for each code of a word in the group `vcp`. The values in its group are those of the last code.
fn show_setting(all: &Capabilities<'_>, setting: &Node<'_>) {
    let Some(codes) = bytes_of_hex(setting.word) else {
        println!("  {}: no code", String::from_utf8_lossy(setting.word));
        return;
    };
    for (i, code) in codes.iter().enumerate() {
        print!("  {code:02X} {}", name(*code));
        if setting.has_group && i + 1 == codes.len() {
            print!(": {}", words(all, setting));
        }
        println!();
    }
}

fn show(text: &[u8]) -> Result<(), String> {
    let mut nodes = Nodes::default();
    let all = Capabilities::read(text, &mut nodes).map_err(|refused| refused.to_string())?;
    for group in all.children(None) {
        if group.word != b"vcp" {
            let inside: Vec<_> = all.children(Some(&group)).map(|n| String::from_utf8_lossy(n.word)).collect();
            println!("{}: {}", String::from_utf8_lossy(group.word), inside.join(" "));
            continue;
        }
        println!("settings:");
        for setting in all.children(Some(&group)) {
            show_setting(&all, &setting);
        }
    }
    Ok(())
}

fn show_requests() -> Result<(), Refusal> {
    for (what, request) in [
        ("brightness to 80", Request::Set { code: 0x10, value: 80 }),
        ("input to HDMI 1", Request::Set { code: 0x60, value: 0x11 }),
    ] {
        println!("{what}: {:?}", request.to_bytes()?);
    }
    Ok(())
}

/// Arguments that are all hex are replies; any others are the string, which the shell may have cut at its spaces.
fn run(arguments: Vec<OsString>) -> Result<(), String> {
    let arguments: Vec<Vec<u8>> = arguments.into_iter().map(OsString::into_vec).collect();
    let replies: Option<Vec<Vec<u8>>> = arguments.iter().map(|argument| bytes_of_hex(argument)).collect();
    let text = match replies {
        _ if arguments.is_empty() => EXAMPLE.to_vec(),
        Some(replies) => joined(&replies)?,
        None => arguments.join(&b' '),
    };
    show(&text)?;
    show_requests().map_err(|refusal| refusal.to_string())
}

fn main() -> ExitCode {
    match run(std::env::args_os().skip(1).collect()) {
        Ok(()) => ExitCode::SUCCESS,
        Err(why) => {
            eprintln!("phone: {why}");
            ExitCode::FAILURE
        }
    }
}
