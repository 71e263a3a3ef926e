//! The C headers: programs are compiled with them by C89, C99, C17 and C++, linked with the static libraries and run.
mod common;
use common::{code_block, compiled_as, repository, text_of, written_by, Linked, C17, C89, C99, CPP};
use ddcci::Refusal;
use std::fs;
use std::path::Path;
use std::process::Command;

const EXAMPLE_WRITES: &str = "\
set brightness to 100: 51 84 03 10 00 64 CC
answer 0: code 10 is 50 of 100
cut by a byte: answer 4, the length byte is wrong, or the slice does not agree with it
(vcp(10 14(05 08))): 5 nodes vcp 10 14 05 08
(): 0 nodes
(a(b)(c)): refused 13 at 5, the capabilities string does not follow the grammar
(vcp(10 12))
in 5 exchanges
call list: tokens 102 101; household 2031 is in entry 1
call list: tokens 102; household 2031 is not called
call list: refused 20 at 12, a household stands twice in the call list: call nobody by it
profiles: 3 differences
  10 50 70
  12 80 -
  60 - 15
profiles: 0 differences
profile 2: refused 17 at 7, the profile or call list is broken here: do not use it
";

const DISPLAY_WRITES: &str = "\
again: answer 18
get: answer 0, done; a read gets 6E 88 02 00 10 00 00 64 00 32 F2
set to 100: answer 0, done; a read gets 6E 80 BE
  code 10 was set to 100: give it to the panel
set to 101: answer 9, the value is above the maximum; a read gets 6E 80 BE
get: answer 0, done; a read gets 6E 88 02 00 10 00 00 64 00 64 A4
table write: answer 0, done; a read gets 6E 80 BE
  the list has 1 bytes: show it anew
text at 0: answer 0, done; a read gets 6E 88 E3 00 00 28 76 63 70 28 30
  5 bytes from 0 of text 0
text at 5: answer 0, done; a read gets 6E 88 E3 00 05 31 30 20 46 34 03
  5 bytes from 5 of text 0
save: answer 0, done; a read gets 6E 80 BE
  saved: keep the profile
at dawn: answer 0, done
  code 10 was set to 80: give it to the panel
  code 12 to 50: refused 8, the VCP code is not allowed
  code 10 to 101: refused 9, the value is above the maximum
  code 10 was set to 90: give it to the panel
  code 10 is 90, saved 100
profile: answer 0, bytes 05 00 01 00 10 64 00
loaded with 101: answer 9 at 0
loaded with 70: answer 0 at 7
";

const CONTROLLER_WRITES: &str = "\
power-up
  panel: code 10 is 50
  read: 6E 80 BE
get brightness
probe
  read: 6E 88 02 00 10 00 00 64 00 32 F2 00 00
  read: 6E 80 BE 00 00
set brightness to 100
  panel: code 10 is 100
  read: 6E 80 BE
degauss
  panel: code 01 is 1
write the list
  panel: A
a command that is not in the table
  read: 6E 80 BE
save
power-up
  panel: code 10 is 100
get brightness
  read: 6E 88 02 00 10 00 00 64 00 64 A4
";

const HOST: &str = "target/staticlib/libddcci.a";
const DISPLAY: &str = "target/staticlib/libddcci_display.a";

fn c_file(name: &str) -> std::path::PathBuf {
    repository().join("c").join(name)
}

/// Runs the command that a C file shows in its first comment, in a folder of its own beside the repository's files.
fn documented(name: &str) -> String {
    let source = text_of(&format!("c/{name}.c"));
    let command = source.lines().find_map(|line| line.strip_prefix(" *     cc ")).expect("a file shows its command");
    let folder = Linked::new(&format!("documented-{name}"), &["c", "include", "target"]);
    let output = Command::new("sh").current_dir(&folder.0).arg("-c").arg(format!("cc {command}")).output().unwrap();
    assert!(output.status.success() && output.stderr.is_empty(), "{}", String::from_utf8_lossy(&output.stderr));
    String::from_utf8(output.stdout).unwrap()
}

#[test]
fn the_example_compiles_and_writes_what_the_papers_say() {
    assert_eq!(documented("example"), EXAMPLE_WRITES);
    for standard in [C99, C17, CPP] {
        assert_eq!(written_by(&compiled_as(standard, &c_file("example.c"), &[HOST])), EXAMPLE_WRITES);
    }
}

#[test]
fn the_display_compiles_and_answers_as_the_papers_say() {
    assert_eq!(documented("display"), DISPLAY_WRITES);
    for standard in [C99, C17, CPP] {
        assert_eq!(written_by(&compiled_as(standard, &c_file("display.c"), &[DISPLAY])), DISPLAY_WRITES);
    }
}

#[test]
fn the_controller_answers_an_i2c_host() {
    assert_eq!(documented("controller"), CONTROLLER_WRITES);
    for standard in [C99, C17, CPP] {
        assert_eq!(written_by(&compiled_as(standard, &c_file("controller.c"), &[DISPLAY])), CONTROLLER_WRITES);
    }
}

/// The programs that count run by the commands that they show. Their numbers are the compiler's, and no test holds them.
#[test]
fn the_counters_run() {
    for (name, lines) in [("copies", 14), ("stack", 13)] {
        assert_eq!(documented(name).lines().count(), lines, "{name}");
    }
}

/// What `c/headers.c` writes behind the meanings of the answer numbers.
const HEADERS_WRITE: &str = "\
answer 0: command 01, code 10, value 0; read: 0, 01, 10, 0
answer 0: command 03, code 10, value 70; read: 0, 03, 10, 70
answer 0: command 03, code 01, value 1; read: 0, 03, 01, 1
answer 9: command 00, code 00, value 0; read: 0, 03, 10, 101
answer 0: command 07, code 00, value 0; read: 0, 07, 00, 0
answer 0: command 0C, code 00, value 0; read: 0, 0C, 00, 0
answer 0: command F3, code 00, value 0; read: 0, F3, 00, 0
answer 0: command E7, code F4, value 0; read: 0, E7, F4, 0
answer 0: command E2, code F4, value 0; read: 0, E2, F4, 0
answer 2: command 00, code 00, value 0; read: 2, 00, 00, 0
brightness 70, list 3 bytes
2 codes declared: 01 10
64 codes, 64 values, 65 answers: answer 0, brightness 100; 0, 9, 77
1 codes, 1 values, 64 answers: answer 0, brightness 38; 0, 77, 77
0 codes, 0 values, 0 answers: answer 0, brightness 70; 77, 77, 77
65 codes, 65 values, 65 answers: answer 7, brightness 70; 77, 77, 77
64 codes, 63 values, 64 answers: answer 7, brightness 70; 77, 77, 77
65 codes, 64 values, 64 answers: answer 1, brightness 70; 77, 77, 77
39 bytes: answer 4; cut to 38: answer 0
1020 bytes: answer 0, 85 entries, position 1020; household 84: answer 0, 1, 84, 0; last token 184
1024 bytes: answer 17, 0 entries, position 1020; household 84: answer 17, 0, 0, 1020; last token 0
1025 bytes: answer 11, 0 entries, position 0; household 84: answer 11, 0, 0, 0; last token 0
0 bytes: answer 0, 0 entries, position 0; household 84: answer 0, 0, 0, 0; last token 0
1020 bytes: answer 19, 0 entries, position 1008; household 84: answer 19, 0, 0, 1008; last token 0
absent: 65536
256 and 256 codes, room 256, 256: answer 0, profile 0, 256 differences, position 0; 00 50 70; FF 50 70; 4D 77 77;
256 and 0 codes, room 257, 256: answer 0, profile 0, 256 differences, position 0; 00 50 65536; FF 50 65536; 4D 77 77;
0 and 256 codes, room 256, 257: answer 0, profile 0, 256 differences, position 0; 00 65536 70; FF 65536 70; 4D 77 77;
256 and 256 codes, room 256, 255: answer 1, profile 0, 0 differences, position 0; 4D 77 77; 4D 77 77; 4D 77 77;
255 and 256 codes, room 255, 256: answer 1, profile 0, 0 differences, position 0; 4D 77 77; 4D 77 77; 4D 77 77;
1 and 0 codes, room 1, 1: answer 0, profile 0, 1 differences, position 0; 00 50 65536; 4D 77 77; 4D 77 77;
0 and 0 codes, room 0, 0: answer 0, profile 0, 0 differences, position 0; 4D 77 77; 4D 77 77; 4D 77 77;
257 and 257 codes, room 0, 0: answer 17, profile 1, 0 differences, position 1792; 4D 77 77; 4D 77 77; 4D 77 77;
256 and 257 codes, room 0, 0: answer 17, profile 2, 0 differences, position 1792; 4D 77 77; 4D 77 77; 4D 77 77;
null message: answer 12
";

/// The headers' version is this crate's, and their answer numbers mean what those of this crate do.
#[test]
fn the_headers_are_c89_c17_and_cpp() {
    let version = env!("CARGO_PKG_VERSION");
    let mut wanted = format!("version {version}, {version}\n0 done\n");
    for number in 1..=255 {
        let meaning = Refusal::from_number(number)
            .map_or("unknown answer".into(), |refusal| refusal.to_string().replace(&format!("refused {number}: "), ""));
        wanted.push_str(&format!("{number} {meaning}\n"));
    }
    wanted.push_str(HEADERS_WRITE);
    assert_eq!(documented("headers"), wanted);
    for standard in [C89, C17, CPP] {
        assert_eq!(written_by(&compiled_as(standard, &c_file("headers.c"), &[HOST, DISPLAY])), wanted);
    }
}

/// README's C loop, with another line for the one that begins the transfer.
fn loop_of_readme(change: impl Fn(&str) -> String) -> String {
    let mut lines = code_block("README.md", "c");
    let begins = lines.iter_mut().find(|line| line.contains("ddcci_begin(DDCCI_CAPABILITIES")).expect("it begins");
    *begins = change(begins);
    lines.join("\n")
}

/// The loop ends for each of the 256 numbers of a text, and for a transfer of zeros.
#[test]
fn the_loop_of_readme_ends_for_every_text() {
    let source = format!(
        r#"
#include <stdio.h>
#include <stdlib.h>
#include "ddcci.h"

static unsigned exchanges;

static size_t exchange(const uint8_t *request, size_t length, uint8_t *reply) {{
    (void)request, (void)length, (void)reply;
    if (++exchanges > 1000) exit(1);
    return 0;
}}

static void text_of(uint8_t number) {{
    exchanges = 0;
    printf("%u: ", number);
    {}
    printf("  state %d after %u exchanges\n", DDCCI_STATE(t), exchanges);
}}

static void zeroed(void) {{
    exchanges = 0;
    {}
    printf("  state %d after %u exchanges\n", DDCCI_STATE(t), exchanges);
}}

int main(void) {{
    for (unsigned number = 0; number < 256; number++) text_of((uint8_t)number);
    zeroed();
    return 0;
}}
"#,
        loop_of_readme(|line| line.replace("DDCCI_CAPABILITIES", "number")),
        loop_of_readme(|_| "ddcci_transfer t = {0};".into()),
    );
    let file = Path::new(env!("CARGO_TARGET_TMPDIR")).join("every_text.c");
    fs::write(&file, source).unwrap();
    let (short, unknown) = ("the message is under 3 bytes", "the command or the text's number is not in the table");
    let mut wanted = String::new();
    for number in 0..256 {
        let (meaning, exchanges) = if number < 2 { (short, 1000) } else { (unknown, 0) };
        wanted.push_str(&format!("{number}: no text; the last answer: {meaning}\n"));
        wanted.push_str(&format!("  state 0 after {exchanges} exchanges\n"));
    }
    wanted.push_str("no text; the last answer: done\n  state 0 after 0 exchanges\n");
    assert_eq!(written_by(&compiled_as(C17, &file, &[HOST])), wanted);
}
