//! What the tests share: how long they run, what C programs they compile, and one spelling of both implementations'
//! messages.
#![allow(dead_code)]
use ddcci::{Refusal, Reply, Request};
use oracle::message as slow;
use std::path::{Path, PathBuf};
use std::process::Command;

/// A program that `tools/build` has built.
pub fn program(name: &str) -> PathBuf {
    let path = Path::new(env!("CARGO_MANIFEST_DIR")).join("../../target/bin").join(name);
    assert!(path.exists(), "{} is missing: run `tools/build {name}` in the repository first", path.display());
    path
}

/// An example that cargo has built beside the tests.
pub fn example(name: &str) -> PathBuf {
    let test = std::env::current_exe().expect("a test has a path");
    let folder = test.parent().and_then(Path::parent).expect("a test stands in the folder deps of its profile");
    let path = folder.join("examples").join(name);
    assert!(path.exists(), "{} is missing: run `cargo build --examples` in rust/ first", path.display());
    path
}

/// The repository's folder.
pub fn repository() -> PathBuf {
    Path::new(env!("CARGO_MANIFEST_DIR")).join("../..")
}

/// A file of the repository, as text.
pub fn text_of(path: &str) -> String {
    std::fs::read_to_string(repository().join(path)).unwrap_or_else(|why| panic!("{path}: {why}"))
}

/// A folder of its own with links to parts of the repository, which is removed when the test has ended.
/// It stands outside the repository, since `rt ci` refuses a checkout that has links.
pub struct Linked(pub PathBuf);

impl Linked {
    pub fn new(name: &str, parts: &[&str]) -> Linked {
        let folder = std::env::temp_dir().join(format!("paneknoll-{name}-{}", std::process::id()));
        let _ = std::fs::remove_dir_all(&folder);
        std::fs::create_dir_all(&folder).unwrap();
        for part in parts {
            std::os::unix::fs::symlink(repository().join(part), folder.join(part)).unwrap();
        }
        Linked(folder)
    }
}

impl Drop for Linked {
    fn drop(&mut self) {
        let _ = std::fs::remove_dir_all(&self.0);
    }
}

/// The C standards that programs are compiled by, with the compiler of each.
pub const C99: &[&str] = &["cc", "-std=c99"];
pub const C89: &[&str] = &["cc", "-std=c89"];
pub const C17: &[&str] = &["cc", "-std=c17"];
pub const CPP: &[&str] = &["c++", "-std=c++17", "-x", "c++"];

/// A C file compiled by a standard, with the headers and what else is named: another file of the repository, or an
/// option.
pub fn compiled_as(standard: &[&str], source: &Path, more: &[&str]) -> PathBuf {
    let name = source.file_stem().expect("a file has a name").to_string_lossy();
    let made = Path::new(env!("CARGO_TARGET_TMPDIR")).join(format!("{name}{}", standard[1]));
    let status = Command::new(standard[0])
        .current_dir(repository())
        .args(["-pedantic", "-Wall", "-Wextra", "-Werror", "-O2", "-Iinclude"])
        .args(&standard[1..])
        .arg(source)
        .args(["-x", "none"])
        .args(more)
        .arg("-o")
        .arg(&made)
        .status()
        .unwrap_or_else(|why| panic!("a compiler, `{}`, is to be installed: {why}", standard[0]));
    assert!(status.success(), "{name} compiles by {standard:?}");
    made
}

/// What a program writes to standard output.
pub fn written_by(program: &Path) -> String {
    let output = Command::new(program).output().expect("the program runs");
    assert!(output.status.success());
    String::from_utf8(output.stdout).expect("it writes text")
}

/// How many times a random test runs: `rounds(n)` is n, or n times the number in `PANEKNOLL_LONGER`.
pub fn rounds(n: usize) -> usize {
    let longer = std::env::var("PANEKNOLL_LONGER").ok().and_then(|s| s.parse().ok()).unwrap_or(1);
    n * longer
}

pub fn request(r: Result<slow::Request<'_>, u8>) -> Result<Request<'_>, u8> {
    Ok(match r? {
        slow::Request::Get { code } => Request::Get { code },
        slow::Request::Set { code, value } => Request::Set { code, value },
        slow::Request::Timing => Request::Timing,
        slow::Request::Save => Request::Save,
        slow::Request::Capabilities { offset } => Request::Text { offset },
        slow::Request::TableRead { code, offset } => Request::TableRead { code, offset },
        slow::Request::TableWrite { code, offset, data } => Request::TableWrite { code, offset, data },
    })
}

pub fn reply(r: Result<slow::Reply<'_>, u8>) -> Result<Reply<'_>, u8> {
    Ok(match r? {
        slow::Reply::Value { result, code, kind, maximum, present } => {
            Reply::Value { result, code, kind, max: maximum, present }
        }
        slow::Reply::Timing { status, horizontal, vertical } => Reply::Timing { status, horizontal, vertical },
        slow::Reply::Capabilities { offset, data } => Reply::TextFragment { offset, data },
        slow::Reply::Table { offset, data } => Reply::TableFragment { offset, data },
    })
}

pub fn number<T>(r: Result<T, Refusal>) -> Result<T, u8> {
    r.map_err(Refusal::number)
}

/// Both implementations read the slice alike, as a request and as a reply.
pub fn read_alike(s: &[u8]) {
    assert_eq!(number(Request::read(s)), request(slow::read_request(s)), "request {s:02X?}");
    assert_eq!(number(Reply::read(s)), reply(slow::read_reply(s)), "reply {s:02X?}");
}

/// The code blocks of a Markdown file: the word behind the opening fence, and the lines.
pub fn code_blocks(path: &str) -> Vec<(String, Vec<String>)> {
    let mut blocks: Vec<(String, Vec<String>)> = vec![];
    let mut inside = false;
    for line in text_of(path).lines() {
        if let Some(language) = line.strip_prefix("```") {
            inside = !inside;
            if inside {
                blocks.push((language.to_string(), vec![]));
            }
        } else if inside {
            blocks.last_mut().expect("a block is open").1.push(line.to_string());
        }
    }
    blocks
}

/// The only code block of a language in a Markdown file.
pub fn code_block(path: &str, language: &str) -> Vec<String> {
    let mut found: Vec<_> = code_blocks(path).into_iter().filter(|(word, _)| word == language).collect();
    assert_eq!(found.len(), 1, "{path} has one block of {language}");
    found.remove(0).1
}
