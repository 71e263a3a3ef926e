//! What README and the guides show is run: commands with what they write, and snippets as parts of programs that run.
mod common;
use common::{code_block, code_blocks, example, program, repository, text_of, written_by, Linked};
use std::collections::BTreeSet;
use std::fs;
use std::path::{Path, PathBuf};
use std::process::{Command, Stdio};

/// The lines of a program between `DOCUMENT begins` and `DOCUMENT ends`, without the indentation that they share.
fn shown_part(path: &str, document: &str) -> Vec<String> {
    let (begins, ends) = (format!("{document} begins"), format!("{document} ends"));
    let text = text_of(path);
    let inside = text.lines().skip_while(|line| !line.contains(&begins)).skip(1);
    let lines: Vec<&str> = inside.take_while(|line| !line.contains(&ends)).collect();
    let indents = lines.iter().filter(|line| !line.is_empty()).map(|line| line.len() - line.trim_start().len());
    let indent = indents.min().expect("there are lines");
    lines.iter().map(|line| line.get(indent..).unwrap_or("").to_string()).collect()
}

#[test]
fn the_snippets_are_parts_of_programs() {
    assert_eq!(code_block("README.md", "rust"), shown_part("rust/ddcci/examples/transfer.rs", "README"));
    assert_eq!(code_block("README.md", "c"), shown_part("c/example.c", "README"));
    assert_eq!(code_block("docs/CONTROLLER.md", "c"), shown_part("c/controller.c", "docs/CONTROLLER.md"));
}

#[test]
fn the_example_of_a_transfer() {
    let tree = "prot\n  monitor\nvcp\n  10\n  12\n  60\n    0F\n    11\n";
    assert_eq!(written_by(&example("transfer")), format!("{tree}in 8 exchanges\n"));
}

/// README and the guides, by their paths.
fn papers() -> Vec<PathBuf> {
    let mut papers = vec![repository().join("README.md")];
    for folder in ["docs", "docs/changes"] {
        let files = fs::read_dir(repository().join(folder)).unwrap().map(|entry| entry.unwrap().path());
        papers.extend(files.filter(|path| path.extension().is_some_and(|extension| extension == "md")));
    }
    papers
}

#[test]
fn the_links_lead_to_files() {
    let mut links = 0;
    for paper in papers() {
        let text = fs::read_to_string(&paper).unwrap();
        for link in text.split("](").skip(1).filter_map(|rest| rest.split(')').next()) {
            let file = link.split('#').next().unwrap_or("");
            if file.is_empty() || file.contains("://") {
                continue;
            }
            assert!(paper.with_file_name(file).exists(), "{} links {link}, which is not there", paper.display());
            links += 1;
        }
    }
    assert!(links > 20, "only {links} links were found");
}

/// A folder of its own with what commands need of the repository.
fn folder(name: &str) -> Linked {
    let folder = Linked::new(name, &["target", "crates"]);
    fs::create_dir_all(folder.0.join("rust")).unwrap();
    folder
}

/// The commands of a console block, each with the lines that it writes.
fn commands(block: &[String]) -> Vec<(&str, Vec<&str>)> {
    let mut commands: Vec<(&str, Vec<&str>)> = vec![];
    for line in block {
        match line.strip_prefix("$ ") {
            Some(command) => commands.push((command, vec![])),
            None => commands.last_mut().expect("a command stands first").1.push(line),
        }
    }
    commands
}

/// `cargo run --example NAME -- ..` runs the example that stands built beside the tests; all else is the shell's.
const CARGO: &str = r#"
cargo() {
  while [ "$1" != --example ]; do shift; done
  name=$2
  while [ $# -gt 0 ] && [ "$1" != -- ]; do shift; done
  [ $# -gt 0 ] && shift
  "$EXAMPLES/$name" "$@"
}
"#;

fn run_in(folder: &Path, command: &str) -> String {
    let examples = example("phone").parent().expect("it stands in a folder").to_path_buf();
    let output = Command::new("sh")
        .current_dir(folder)
        .env("EXAMPLES", examples)
        .arg("-c")
        .arg(format!("{CARGO}\n{{ {command}\n}} 2>&1"))
        .stdin(Stdio::null())
        .output()
        .unwrap();
    String::from_utf8(output.stdout).unwrap()
}

#[test]
fn the_commands_of_readme_write_what_it_shows() {
    let folder = folder("readme");
    let mut ran = 0;
    for (language, block) in code_blocks("README.md") {
        if language != "console" {
            continue;
        }
        for (command, writes) in commands(&block) {
            let wanted: String = writes.iter().map(|line| format!("{line}\n")).collect();
            assert_eq!(run_in(&folder.0, command), wanted, "{command}");
            ran += 1;
        }
    }
    assert!(ran >= 5, "{ran} commands ran");
}

/// README shows the day shortened: its lines stand in the day's output in that order, and between `[..]` with no
/// other.
#[test]
fn the_day_of_readme_is_the_days() {
    let written = written_by(&program("day"));
    let day: Vec<&str> = written.lines().collect();
    let shown = code_block("README.md", "text");
    let mut at = 0;
    for part in shown.split(|line| line.trim_start().starts_with("[..]")) {
        let part: Vec<&str> = part.iter().map(String::as_str).collect();
        let place = (at..=day.len() - part.len()).find(|&i| day[i..].starts_with(&part));
        at = part.len() + place.unwrap_or_else(|| panic!("the day has no such lines: {part:?}"));
    }
    assert_eq!(at, day.len(), "the last line shown is the day's last");
    assert!(text_of("README.md").contains(&format!("writes {} lines", day.len())));
}

/// The other programs that README names have nothing to say but that all is well.
#[test]
fn the_vectors_hold() {
    for name in ["message_vectors", "capabilities_vectors", "transfer_vectors", "display_vectors"] {
        let input = repository().join("crates").join(name).join("stdin");
        let stdin = fs::File::open(input).map_or_else(|_| Stdio::null(), Stdio::from);
        let output = Command::new(program(name)).stdin(stdin).output().unwrap();
        assert!(output.status.success() && output.stderr.is_empty(), "{name}");
        let written = String::from_utf8(output.stdout).unwrap();
        assert_eq!(written, text_of(&format!("crates/{name}/stdout")), "{name}");
    }
}

/// The examples of docs/DISPLAY-PIPE.md, with the bytes that the text behind each names.
#[test]
fn the_examples_of_the_display_pipe() {
    let guide = text_of("docs/DISPLAY-PIPE.md");
    let folder = folder("display-pipe");
    let examples: Vec<&str> = guide.split("\n    printf ").skip(1).collect();
    let named: [&[&str]; 2] =
        [&["00 00 00", "00 0b 00", "6e 88 02 01 10 00 00 00 00 00 a5"], &["00 00 00", "00 02 00", "00 09"]];
    assert_eq!(examples.len(), named.len());
    for (example, parts) in examples.iter().zip(named) {
        let (command, text) = example.split_once('\n').expect("a text stands behind the command");
        let run = command.replace("| display_pipe | xxd", "| target/bin/display_pipe | od -An -v -tx1");
        let bytes: Vec<String> =
            run_in(&folder.0, &format!("printf {run}")).split_whitespace().map(str::to_string).collect();
        assert_eq!(bytes.join(" "), parts.join(" "));
        for part in parts {
            assert!(text.contains(&format!("`{part}`")), "{part}");
        }
    }
}

/// What stands between backquotes in a file and has the form `CRATE/NAME`, for a crate of the repository.
fn cited(path: &str) -> BTreeSet<String> {
    let text = text_of(path);
    let quoted = text.split('`').skip(1).step_by(2);
    let named = quoted.filter(|name| name.split('/').count() == 2 && !name.contains(['.', ' ', '*']));
    let of_a_crate = named.filter(|name| repository().join("crates").join(name.split('/').next().unwrap()).is_dir());
    of_a_crate.map(str::to_string).collect()
}

/// Every must-fail edit, as `CRATE/LABEL`.
fn edits() -> BTreeSet<String> {
    let mut edits = BTreeSet::new();
    for entry in fs::read_dir(repository().join("crates")).unwrap() {
        let folder = entry.unwrap();
        let name = folder.file_name().into_string().unwrap();
        for edit in fs::read_dir(folder.path().join("must-fail")).into_iter().flatten() {
            let edit = edit.unwrap().path();
            edits.insert(format!("{name}/{}", edit.file_stem().unwrap().to_str().unwrap()));
        }
    }
    edits
}

/// Whether a name is of two words, as the names of laws, theorems and most functions are.
fn of_two_words(name: &str) -> bool {
    name.trim_matches('_').contains(['-', '_'])
}

/// Every word of the crates' files in a folder of theirs, and of the Rust tests, that is of two words.
fn names_of_two_words() -> BTreeSet<String> {
    let mut folders: Vec<PathBuf> =
        ["rust/ddcci/tests", "rust/oracle/tests"].map(|part| repository().join(part)).into();
    let mut names = BTreeSet::new();
    for entry in fs::read_dir(repository().join("crates")).unwrap() {
        let folder = entry.unwrap().path();
        names.insert(folder.file_name().unwrap().to_str().unwrap().to_string());
        folders.extend(["specs", "proofs", "src"].map(|part| folder.join(part)));
    }
    for file in folders.iter().flat_map(|folder| fs::read_dir(folder).into_iter().flatten()) {
        let path = file.unwrap().path();
        if path.extension().is_some_and(|extension| ["antt", "rt", "rs"].iter().any(|known| extension == *known)) {
            let text = fs::read_to_string(path).unwrap();
            let words = text.split(|c: char| !(c.is_alphanumeric() || c == '-' || c == '_'));
            names.extend(words.filter(|word| of_two_words(word)).map(str::to_string));
        }
    }
    names
}

#[test]
fn the_statements_cite_laws_that_there_are() {
    let (text, names) = (text_of("docs/STATEMENTS.md"), names_of_two_words());
    let a_name =
        |name: &&str| of_two_words(name) && name.chars().all(|c| c.is_ascii_alphanumeric() || c == '-' || c == '_');
    for name in text.split('`').skip(1).step_by(2).filter(a_name).filter(|name| !name.ends_with('_')) {
        assert!(names.contains(name), "docs/STATEMENTS.md cites {name}, which no crate has");
    }
}

#[test]
fn the_statements_cite_what_there_is() {
    let (cited, edits) = (cited("docs/STATEMENTS.md"), edits());
    let uncited: Vec<_> = edits.difference(&cited).collect();
    assert!(uncited.is_empty(), "docs/STATEMENTS.md cites no sentence for {uncited:?}");
    for name in cited.difference(&edits) {
        let (folder, file) = name.split_once('/').unwrap();
        let stands = |part| repository().join(format!("crates/{folder}/{part}/{file}.antt")).exists();
        assert!(stands("specs") || stands("proofs"), "docs/STATEMENTS.md cites {name}, which is not there");
    }
}
