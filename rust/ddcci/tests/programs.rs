//! `capabilities_tree`, `gate_check` and `compare_profiles`: what goes to standard output, and what they tell people on
//! standard error. `day`: what goes out in one write.
mod common;
use common::{program, text_of};
use std::ffi::OsStr;
use std::fs::{self, File};
use std::io::Write;
use std::os::fd::OwnedFd;
use std::os::unix::net::{UnixDatagram, UnixStream};
use std::path::{Path, PathBuf};
use std::process::{Child, Command, Stdio};
use std::thread::{sleep, spawn};
use std::time::Duration;

fn started(name: &str, stdin: Stdio) -> Child {
    Command::new(program(name))
        .stdin(stdin)
        .stdout(Stdio::piped())
        .stderr(Stdio::piped())
        .spawn()
        .expect("the program starts")
}

/// What a program that has its input writes to standard output and to standard error until it ends.
fn wrote(child: Child) -> (String, String) {
    let output = child.wait_with_output().expect("it ends");
    assert!(output.status.success(), "a program has no exit status of its own");
    let text = |bytes| String::from_utf8(bytes).expect("it writes text");
    (text(output.stdout), text(output.stderr))
}

/// What the program writes for this input, which comes in pieces of at most so many bytes, 2 milliseconds apart.
fn wrote_for_pieces(name: &str, input: &[u8], most: usize) -> (String, String) {
    let mut child = started(name, Stdio::piped());
    let mut to = child.stdin.take().expect("it is a pipe");
    for piece in input.chunks(most) {
        to.write_all(piece).expect("it reads");
        sleep(Duration::from_millis(2));
    }
    drop(to);
    wrote(child)
}

/// What the program writes for this input at once.
fn wrote_for(name: &str, input: &[u8]) -> (String, String) {
    wrote_for_pieces(name, input, input.len().max(1))
}

/// What the program writes where its input is a folder, which nobody can read as a file.
fn wrote_for_a_folder(name: &str) -> (String, String) {
    wrote(started(name, File::open(env!("CARGO_MANIFEST_DIR")).unwrap().into()))
}

/// What the program writes where it is started without a standard input.
fn wrote_without_input(name: &str) -> (String, String) {
    let mut shell = Command::new("sh");
    shell.args(["-c", "exec \"$0\" <&-"]).arg(program(name)).stdout(Stdio::piped()).stderr(Stdio::piped());
    wrote(shell.spawn().expect("a shell starts"))
}

#[test]
fn a_tree_says_nothing_on_standard_error() {
    let tree = "prot\n  monitor\nvcp\n  10\n  14\n    05\n    08\n";
    assert_eq!(wrote_for("capabilities_tree", b"(prot(monitor)vcp(10 14(05 08)))"), (tree.into(), "".into()));
    assert_eq!(wrote_for("capabilities_tree", b"()"), ("".into(), "".into()));
    assert_eq!(wrote_for("capabilities_tree", b"(prot(monitor)vcp(10 14(05 08)))\0"), (tree.into(), "".into()));
    let longest = [&b"(a)"[..], &[0; 4093]].concat();
    assert_eq!(wrote_for("capabilities_tree", &longest), ("a\n".into(), "".into()));
}

#[test]
fn a_refusal_is_one_line_and_the_reason_another() {
    let many = [b"(".as_slice(), &b"a ".repeat(513), b")"].concat();
    let deep = [b"(a".repeat(9), b")".repeat(9)].concat();
    for (input, line, why) in [
        (&b"(a(b)(c))"[..], "refused 13 at 5\n", "13, not in the grammar: byte 5 is 28"),
        (b"(vcp(10))\n", "refused 13 at 9\n", "13, not in the grammar: byte 9 is 0A, a line end: remove it"),
        (
            b"(vcp(10)\0",
            "refused 13 at 8\n",
            "13, not in the grammar: byte 8 is 00, a zero byte, which may only follow",
        ),
        (b"\0()", "refused 13 at 0\n", "13, not in the grammar: byte 0 is 00, a zero byte, which may only follow"),
        (b"(vcp(10))\0\n", "refused 13 at 10\n", "13, not in the grammar: byte 10 is 0A, a line end: remove it"),
        (b"()\0a", "refused 13 at 3\n", "13, not in the grammar: byte 3 is 61\n"),
        (b"", "refused 13 at 0\n", "13, not in the grammar: it is empty"),
        (b"(a", "refused 13 at 2\n", "13, not in the grammar: it ends at byte 2 with no closing bracket"),
        (&[b"()".as_slice(), &[0; 4095]].concat(), "refused 11 at 0\n", "11, no room for it: a capabilities string"),
        (&[b' '; 4097], "refused 11 at 0\n", "11, no room for it: a capabilities string has at most 4096 bytes"),
        (&many, "refused 14 at 1025\n", "14, "),
        (&deep, "refused 15 at 16\n", "15, "),
    ] {
        let (out, said) = wrote_for("capabilities_tree", input);
        assert_eq!(out, line);
        assert!(said.starts_with(&format!("capabilities_tree: {why}")), "{said}");
        assert_eq!((said.lines().count(), said.ends_with('\n')), (1, true), "{said}");
    }
}

#[test]
fn an_input_that_cannot_be_read_is_not_an_empty_one() {
    for name in ["capabilities_tree", "gate_check"] {
        for (out, said) in [wrote_for_a_folder(name), wrote_without_input(name)] {
            assert_eq!(out, "");
            assert!(said.starts_with(&format!("{name}: standard input cannot be read")), "{said}");
            assert_eq!((said.lines().count(), said.ends_with('\n')), (1, true), "{said}");
        }
    }
}

/// A record of a call list: length 10, kind 32, token, household.
fn record(token: u32, household: u32) -> Vec<u8> {
    [[10, 0, 32, 0], token.to_le_bytes(), household.to_le_bytes()].concat()
}

/// A call list with these tokens, for households from 2000 on.
fn call_list(tokens: impl IntoIterator<Item = u32>) -> Vec<u8> {
    tokens.into_iter().zip(2000..).flat_map(|(token, household)| record(token, household)).collect()
}

fn gate_check(input: &[u8]) -> (String, String) {
    wrote_for("gate_check", input)
}

/// Nothing on standard output and nothing on standard error.
fn nothing() -> (String, String) {
    (String::new(), String::new())
}

#[test]
fn a_checked_list_is_its_tokens() {
    let tokens = "102\n0\n4294967295\n65536\n101\n";
    let list = call_list([102, 0, 4_294_967_295, 65_536, 101]);
    assert_eq!(gate_check(&list), (tokens.into(), "".into()));
    assert_eq!(gate_check(&call_list([7])), ("7\n".into(), "".into()));
    assert_eq!(gate_check(b""), nothing());
    let most = call_list((0..85).map(|i| 1084 - i));
    let falling: String = (1000..1085).rev().map(|token| format!("{token}\n")).collect();
    assert_eq!((most.len(), falling.lines().count()), (1020, 85));
    assert_eq!(gate_check(&most), (falling, "".into()));
}

/// A pipe may give a list in pieces that end anywhere.
#[test]
fn a_list_that_comes_in_pieces_is_read_whole() {
    let list = call_list([31, 32, 33, 34]);
    for most in [1, 5, 12, 13] {
        assert_eq!(wrote_for_pieces("gate_check", &list, most), ("31\n32\n33\n34\n".into(), "".into()));
    }
}

/// The other end of a socket closes with a byte unread: two whole records come, then one read fails, then the input has
/// ended. The records may be a cut list, so nobody is called by them.
#[test]
fn an_input_that_fails_behind_a_record_is_no_list() {
    let (mut read_end, mut far_end) = UnixStream::pair().unwrap();
    read_end.write_all(b"?").unwrap();
    far_end.write_all(&call_list([7, 8])).unwrap();
    drop(far_end);
    let (out, said) = wrote(started("gate_check", OwnedFd::from(read_end).into()));
    assert_eq!(out, "");
    assert!(said.starts_with("gate_check: standard input cannot be read to its end"), "{said}");
}

/// Not a byte is written, neither the tokens before the refused record nor a reason.
#[test]
fn a_refused_list_is_nothing_at_all() {
    let most = call_list(1..86);
    let good = call_list([5, 6, 7]);
    let with = |at: usize, byte: u8| [&good[..at], &[byte], &good[at + 1..]].concat();
    for (why, list) in [
        ("1,024 bytes, of which the last 4 are cut", [&most[..], &[10, 0, 32, 0]].concat()),
        ("1,025 bytes", [&most[..], &[10, 0, 32, 0, 86]].concat()),
        ("86 whole records", call_list(1..87)),
        ("a byte", vec![10]),
        ("a cut record", good[..35].to_vec()),
        ("length 11", with(24, 11)),
        ("kind 50, which is 32 in hexadecimal", with(26, 0x32)),
        ("kind 32 with the highest byte first", [&good[..24], &[10, 0, 0, 32], &good[28..]].concat()),
        ("a token twice", call_list([5, 6, 5])),
        ("a household twice", [good.clone(), record(8, 2001)].concat()),
        ("a line end behind the list", [&good[..], b"\n"].concat()),
    ] {
        assert_eq!(gate_check(&list), nothing(), "{why}");
    }
}

/// The input begins with 85 good records and does not end: it is too long by its 1,025th byte.
#[test]
fn an_endless_list_is_refused() {
    const ENOUGH: usize = 1 << 26;
    let mut child = started("gate_check", Stdio::piped());
    let mut to = child.stdin.take().expect("it is a pipe");
    let records = call_list(0..5000);
    let mut written = 0;
    while written < ENOUGH && to.write_all(&records).is_ok() {
        written += records.len();
    }
    assert!(written < ENOUGH, "the program ends before {ENOUGH} bytes are read");
    assert_eq!(wrote(child), nothing());
}

/// A folder of its own for the files of a test, which is removed when the test has ended.
struct Folder(PathBuf);

impl Folder {
    fn new(name: &str) -> Folder {
        let folder = Path::new(env!("CARGO_TARGET_TMPDIR")).join(format!("compare_profiles-{name}"));
        let _ = fs::remove_dir_all(&folder);
        fs::create_dir_all(&folder).unwrap();
        Folder(folder)
    }

    /// The path of a file with these bytes.
    fn file(&self, name: &str, bytes: &[u8]) -> PathBuf {
        let path = self.0.join(name);
        fs::write(&path, bytes).unwrap();
        path
    }

    /// The path of a pipe with a name, which gives these bytes to who reads it, in pieces of at most so many.
    fn pipe(&self, name: &str, bytes: &[u8], most: usize) -> PathBuf {
        let (path, bytes) = (self.0.join(name), bytes.to_vec());
        assert!(Command::new("mkfifo").arg(&path).status().unwrap().success());
        let to = path.clone();
        spawn(move || {
            let mut to = File::options().write(true).open(to).unwrap();
            for piece in bytes.chunks(most) {
                // Who has read enough closes the pipe.
                if to.write_all(piece).is_err() {
                    return;
                }
                sleep(Duration::from_millis(2));
            }
        });
        path
    }
}

impl Drop for Folder {
    fn drop(&mut self) {
        let _ = fs::remove_dir_all(&self.0);
    }
}

/// What `compare_profiles` writes for these arguments.
fn compare_given(arguments: &[&OsStr]) -> (String, String) {
    let mut command = Command::new(program("compare_profiles"));
    command.args(arguments).stdin(Stdio::null()).stdout(Stdio::piped()).stderr(Stdio::piped());
    wrote(command.spawn().expect("the program starts"))
}

fn compare(first: &Path, second: &Path) -> (String, String) {
    compare_given(&[first.as_os_str(), second.as_os_str()])
}

/// These lines on standard output, and nothing on standard error.
fn lines(text: impl Into<String>) -> (String, String) {
    (text.into(), String::new())
}

/// "A refused program .. writes only one line with the number, as `refused 17`."
fn refused_17() -> (String, String) {
    lines("refused 17\n")
}

/// A profile of these codes and values, in their order.
fn profile(entries: impl IntoIterator<Item = (u8, u16)>) -> Vec<u8> {
    let record = |(code, value): (u8, u16)| [5, 0, 1, 0, code, value as u8, (value >> 8) as u8];
    entries.into_iter().flat_map(record).collect()
}

/// All 256 codes, each with this value above its number.
fn all_codes(above: u16) -> Vec<u8> {
    profile((0..=255).map(|code| (code, u16::from(code) + above)))
}

#[test]
fn profiles_that_are_the_same_write_nothing() {
    let folder = Folder::new("same");
    for (name, bytes) in [("empty", vec![]), ("one", profile([(0x10, 50)])), ("all", all_codes(0))] {
        let (file, copy) = (folder.file(name, &bytes), folder.file(&format!("{name} copied"), &bytes));
        assert_eq!(compare(&file, &copy), nothing(), "{name}");
        assert_eq!(compare(&file, &file), nothing(), "{name}, the same file twice");
    }
}

/// "Code in two capital hex digits, then both values in decimal, "-" where absent, one space between: `10 50 70`."
#[test]
fn a_line_for_each_code_that_differs() {
    let folder = Folder::new("lines");
    let first = profile([(0x00, 0), (0x0A, 9), (0x10, 50), (0x12, 80), (0x60, 15), (0xF4, 255), (0xFE, 65_535)]);
    let second = profile([(0x0A, 10), (0x10, 70), (0x12, 80), (0x1F, 256), (0x60, 0), (0xF4, 511), (0xFF, 65_535)]);
    let (first, second) = (folder.file("first", &first), folder.file("second", &second));
    let there = "00 0 -\n0A 9 10\n10 50 70\n1F - 256\n60 15 0\nF4 255 511\nFE 65535 -\nFF - 65535\n";
    let back = "00 - 0\n0A 10 9\n10 70 50\n1F 256 -\n60 0 15\nF4 511 255\nFE - 65535\nFF 65535 -\n";
    assert_eq!(compare(&first, &second), lines(there));
    assert_eq!(compare(&second, &first), lines(back));
    let (dusk, dawn) = ([5, 0, 1, 0, 0x10, 50, 0], [5, 0, 1, 0, 0x10, 70, 0]);
    let (dusk, dawn) = (folder.file("dusk", &dusk), folder.file("dawn", &dawn));
    assert_eq!(compare(&dusk, &dawn), lines("10 50 70\n"));
}

/// "It has room for 256 codes."
#[test]
fn all_256_codes_may_differ() {
    let folder = Folder::new("all");
    let empty = folder.file("empty", b"");
    let (low, high) = (folder.file("low", &all_codes(0)), folder.file("high", &all_codes(65_280)));
    let all = |line: fn(u32) -> String| lines((0..256).map(line).collect::<String>());
    assert_eq!(compare(&low, &empty), all(|code| format!("{code:02X} {code} -\n")));
    assert_eq!(compare(&empty, &low), all(|code| format!("{code:02X} - {code}\n")));
    assert_eq!(compare(&low, &high), all(|code| format!("{code:02X} {code} {}\n", code + 65_280)));
    let half = |least: u8| profile((0..128).map(|code| (2 * code + least, 7)));
    let (even, odd) = (folder.file("even", &half(0)), folder.file("odd", &half(1)));
    let turns = (0..128).map(|half| format!("{:02X} 7 -\n{:02X} - 7\n", 2 * half, 2 * half + 1));
    assert_eq!(compare(&even, &odd), lines(turns.collect::<String>()));
}

/// A broken profile is refused as the first, as the second and as both, whatever the other one is.
#[test]
fn a_broken_profile_is_refused() {
    let folder = Folder::new("broken");
    let good = profile([(0x10, 50), (0x12, 80)]);
    let others = [folder.file("good", &good), folder.file("empty", b""), folder.file("all", &all_codes(9))];
    let with = |at: usize, byte: u8| [&good[..at], &[byte], &good[at + 1..]].concat();
    for (why, bytes) in [
        ("a byte", vec![5]),
        ("a cut record", good[..13].to_vec()),
        ("a line end behind it", [&good[..], b"\n"].concat()),
        ("length 6", with(7, 6)),
        ("length 261", with(8, 1)),
        ("kind 2", with(9, 2)),
        ("kind 257", with(10, 1)),
        ("a code twice", profile([(0x10, 50), (0x10, 50)])),
        ("a falling code", profile([(0x12, 80), (0x10, 50)])),
        ("a code 0 behind 255", profile([(0xFF, 1), (0x00, 1)])),
        ("text", b"10 50\n".to_vec()),
        ("1,791 bytes", all_codes(0)[..1791].to_vec()),
        ("1,793 bytes", [&all_codes(0)[..], &[5]].concat()),
        ("257 records", [all_codes(0), profile([(0x00, 0)])].concat()),
        ("257 records, and the last code again", [all_codes(0), profile([(0xFF, 255)])].concat()),
        ("all codes twice", all_codes(0).repeat(2)),
        ("100,000 bytes of records", all_codes(0).repeat(56)[..100_000].to_vec()),
        ("100,000 zero bytes", vec![0; 100_000]),
    ] {
        let bad = folder.file("bad", &bytes);
        for other in &others {
            assert_eq!(compare(&bad, other), refused_17(), "{why}");
            assert_eq!(compare(other, &bad), refused_17(), "{why}");
        }
        assert_eq!(compare(&bad, &bad), refused_17(), "{why}");
    }
}

/// "17 at 0 if it can't be read": it is not there, or it is a folder, or nothing names it.
#[test]
fn a_file_that_cannot_be_read_is_refused() {
    let folder = Folder::new("missing");
    let good = folder.file("good", &profile([(0x10, 50)]));
    let (empty, broken) = (folder.file("empty", b""), folder.file("broken", b"5"));
    let beyond = good.join("file");
    for bad in [&folder.0.join("missing"), &folder.0, &beyond, Path::new(""), Path::new("/"), Path::new("-")] {
        for other in [&good, &empty, &broken] {
            assert_eq!(compare(bad, other), refused_17(), "{}", bad.display());
            assert_eq!(compare(other, bad), refused_17(), "{}", bad.display());
        }
        assert_eq!(compare(bad, bad), refused_17(), "{}", bad.display());
    }
    for end in [Path::new("/dev/zero"), Path::new("/dev/full")] {
        assert_eq!(compare(end, &good), refused_17(), "{} does not end", end.display());
        assert_eq!(compare(&good, end), refused_17(), "{} does not end", end.display());
    }
}

/// Two files are compared: fewer, and more, are refused like one that cannot be read.
#[test]
fn other_than_two_arguments_are_refused() {
    let folder = Folder::new("arguments");
    let (first, second) = (folder.file("first", &profile([(1, 1)])), folder.file("second", &profile([(1, 2)])));
    let (first, second) = (first.as_os_str(), second.as_os_str());
    assert_eq!(compare_given(&[first, second]), lines("01 1 2\n"));
    for arguments in [
        &[][..],
        &[first],
        &[OsStr::new("")],
        &[first, first, first],
        &[first, second, first],
        &[first, second, OsStr::new("")],
        &[first, second, first, second],
    ] {
        assert_eq!(compare_given(arguments), refused_17(), "{arguments:?}");
    }
}

/// A path may have spaces and bytes of any language, begin with a hyphen, and be as long as the system takes.
#[test]
fn a_file_may_have_any_path() {
    let folder = Folder::new("paths");
    let (dusk, dawn) = (profile([(0x10, 50)]), profile([(0x10, 70)]));
    for name in [" board 7 at dusk ", "Bretterwand 7, früh", "two\nlines", "*", "-h", "\"quoted\""] {
        let (first, second) = (folder.file(name, &dusk), folder.file("dawn", &dawn));
        assert_eq!(compare(&first, &second), lines("10 50 70\n"), "{name}");
        assert_eq!(compare(&second, &first), lines("10 70 50\n"), "{name}");
    }
    let (first, second) = (folder.file("dusk", &dusk), folder.file("dawn", &dawn));
    let start = folder.0.to_str().unwrap();
    for length in [1000, 1025, 2049, 4095, 4096, 5000] {
        let rest = length - start.len() - "dusk".len();
        let long = PathBuf::from(format!("{start}{}dusk", "/".repeat(rest)));
        assert_eq!(long.as_os_str().len(), length);
        let readable = length < 4096;
        assert_eq!(File::open(&long).is_ok(), readable, "a path of {length} bytes");
        let wanted = if readable { lines("10 50 70\n") } else { refused_17() };
        assert_eq!(compare(&long, &second), wanted, "a path of {length} bytes");
        let wanted = if readable { nothing() } else { refused_17() };
        assert_eq!(compare(&first, &long), wanted, "a path of {length} bytes");
    }
}

/// A pipe may give a profile in pieces that end anywhere.
#[test]
fn profiles_that_come_in_pieces_are_read_whole() {
    let folder = Folder::new("pieces");
    let (dusk, dawn) = (profile([(0x10, 50), (0x12, 80)]), profile([(0x10, 70), (0x12, 80), (0x60, 15)]));
    let (first, second) = (folder.file("dusk", &dusk), folder.file("dawn", &dawn));
    let all: String = (0..256).map(|code| format!("{code:02X} - {code}\n")).collect();
    for most in [1, 5, 7, 8, 21] {
        let pipe = |name: &str, bytes: &[u8]| folder.pipe(&format!("{name} {most}"), bytes, most);
        assert_eq!(compare(&pipe("first", &dusk), &second), lines("10 50 70\n60 - 15\n"));
        assert_eq!(compare(&first, &pipe("second", &dawn)), lines("10 50 70\n60 - 15\n"));
        assert_eq!(compare(&pipe("both 1", &dusk), &pipe("both 2", &dawn)), lines("10 50 70\n60 - 15\n"));
        assert_eq!(compare(&pipe("cut", &dusk[..13]), &second), refused_17());
        assert_eq!(compare(&first, &pipe("behind", &[&dawn[..], &[5]].concat())), refused_17());
    }
    let empty = folder.file("empty", b"");
    assert_eq!(compare(&empty, &folder.pipe("all", &all_codes(0), 100)), lines(all));
}

/// What `day` writes to standard output, each write by itself: a datagram socket keeps them apart.
fn writes_of_the_day() -> Vec<String> {
    let (from, to) = UnixDatagram::pair().unwrap();
    from.set_read_timeout(Some(Duration::from_secs(60))).unwrap();
    let mut command = Command::new(program("day"));
    let mut child = command.stdin(Stdio::null()).stdout(OwnedFd::from(to)).spawn().expect("the program starts");
    let wanted = text_of("crates/day/stdout");
    let mut writes: Vec<String> = vec![];
    while writes.iter().map(String::len).sum::<usize>() < wanted.len() {
        let mut room = [0; 4096];
        let len = from.recv(&mut room).expect("it writes on");
        writes.push(std::str::from_utf8(&room[..len]).expect("it writes text").into());
    }
    assert!(child.wait().expect("it ends").success());
    assert_eq!(writes.concat(), wanted);
    writes
}

/// A full pipe takes a write of so few bytes whole or not at all, so a space goes out with the digits behind it.
#[test]
fn a_byte_of_a_row_is_one_write() {
    let writes = writes_of_the_day();
    for row in ["05 00 01 00 10 46 00", "05 00 01 00 12 32 00", "05 00 01 00 60 0F 00"] {
        let bytes: Vec<String> = row.split(' ').map(|byte| format!(" {byte}")).collect();
        assert!(writes.windows(bytes.len()).any(|part| part == bytes), "{row}: {writes:?}");
    }
}
