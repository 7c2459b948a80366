//! The program compare by its command line: a read outside a lent buffer ends
//! it, and an input is compared again from a file.

use std::fs;
use std::path::Path;
use std::process::Command;

/// The exit status and what is printed. It is run in the repository's folder.
fn compare(arguments: &[&str]) -> (Option<i32>, String) {
    let repository = Path::new(env!("CARGO_MANIFEST_DIR")).join("../..");
    let mut command = Command::new(env!("CARGO_BIN_EXE_compare"));
    let output = command.args(arguments).current_dir(repository).output().expect("it runs");
    let printed = String::from_utf8(output.stdout).expect("it prints text");
    (output.status.code(), printed)
}

/// What is printed of a fault.
const FAULT: &str = "  repeat: tests/rust/run 17 1 \"probe\"
FAILED: probe: seed 17: a read or write outside a lent buffer, or a stack that ran out (SIGSEGV)
";

#[test]
fn a_read_outside_is_told_and_ends_the_process() {
    for (edge, at) in [("end", "8"), ("end", "74000"), ("start", "-1"), ("start", "-74000")] {
        let told = (Some(1), FAULT.to_string());
        assert_eq!(compare(&["read", edge, at]), told, "byte {at}, {edge} at the edge");
    }
}

#[test]
fn a_read_inside_is_none_of_that() {
    for edge in ["start", "end"] {
        assert_eq!(compare(&["read", edge, "0"]), (Some(0), "1\n".to_string()));
        assert_eq!(compare(&["read", edge, "7"]), (Some(0), "8\n".to_string()));
    }
}

/// A file with this text, compared again.
fn again(name: &str, text: &str) -> (Option<i32>, String) {
    let path = Path::new(env!("CARGO_TARGET_TMPDIR")).join(name);
    fs::write(&path, text).expect("the file can be written");
    compare(&["again", path.to_str().expect("the path is text")])
}

const EMPTY: &str = "number: 17\nplant:\nrecord:\nrequests: 0100000000\nbuffer: 577\n";

#[test]
fn an_input_in_a_file_is_compared() {
    let (status, printed) = again("same.txt", &format!("group: batch\n{EMPTY}"));
    assert_eq!(status, Some(0), "{printed}");
    assert!(printed.starts_with("passed: batch: ") && printed.ends_with("\n1 passed, 0 failed\n"));
}

#[test]
fn a_file_that_says_no_group_passes_nothing() {
    for text in [EMPTY.to_string(), format!("group: no such group\n{EMPTY}")] {
        let (status, printed) = again("no-group.txt", &text);
        assert_eq!(status, Some(1), "{printed}");
        assert!(printed.starts_with("FAILED: nothing was compared: "), "{printed}");
        assert!(printed.ends_with("\n0 passed, 1 failed\n"), "{printed}");
    }
}
