//! The commands `show`, `putback` and `sweep` on the files of a folder.

mod common;

use common::{M, P, file};
use std::fs;
use std::path::{Path, PathBuf};
use std::process::Command;

fn folder(name: &str, files: &[(&str, Vec<u8>)]) -> PathBuf {
    let folder = Path::new(env!("CARGO_TARGET_TMPDIR")).join(name);
    let _ = fs::remove_dir_all(&folder);
    fs::create_dir_all(&folder).expect("a folder for the test");
    for (name, bytes) in files {
        fs::write(folder.join(name), bytes).expect("a file for the test");
    }
    folder
}

fn printed(command: &str, folder: &Path) -> String {
    let output = Command::new(env!("CARGO_BIN_EXE_second"))
        .arg(command)
        .arg(folder)
        .output()
        .expect("the second program starts");
    assert!(output.status.success());
    String::from_utf8(output.stdout).expect("lines of digits")
}

#[test]
fn show_and_putback_print_the_reply_line_and_the_output_lines() {
    let view = ["0001000002026869", "0001010004026869"];
    let folder = folder(
        "both",
        &[("master.hex", file(&M)), ("program.hex", file(&P)), ("view.hex", file(&view))],
    );
    let shown = "0000000022\n0001000002026869\n0001000004026C6F\n";
    assert_eq!(printed("show", &folder), shown);
    let lines = [M[0], M[1], M[2], M[3], "0201010004026869"].join("\n");
    assert_eq!(printed("putback", &folder), format!("000000004F\n{lines}\n"));
}

#[test]
fn sweep_prints_the_reply_line_the_swept_lines_and_the_number_lines() {
    let row_1_deleted = [M[0], "01020200010177", M[2], M[3], M[4]];
    let swept = "000000002F\n00020000000164\n01020000010177\n0201000002026C6F\n";
    let numbers = "0000\nFFFF\nFFFF\n0001\n0002\n";
    let with_a_master = folder("sweep", &[("master.hex", file(&row_1_deleted))]);
    assert_eq!(printed("sweep", &with_a_master), format!("{swept}{numbers}"));
    let with_an_empty_one = folder("sweep_nothing", &[("master.hex", Vec::new())]);
    assert_eq!(printed("sweep", &with_an_empty_one), "0000000000\n");
    let without = folder("sweep_no_master", &[("program.hex", file(&P))]);
    assert_eq!(printed("sweep", &without), "FF00000000\n");
}

#[test]
fn a_file_that_cannot_be_read_prints_ff() {
    let without_view = folder("no_view", &[("master.hex", file(&M)), ("program.hex", file(&P))]);
    assert!(printed("show", &without_view).starts_with("0000000022\n"));
    assert_eq!(printed("putback", &without_view), "FF00000000\n");
    let without_program = folder("no_program", &[("master.hex", file(&M))]);
    assert_eq!(printed("show", &without_program), "FF00000000\n");
    let a_folder_for_a_file = folder("no_file", &[("program.hex", file(&P))]);
    fs::create_dir(a_folder_for_a_file.join("master.hex")).expect("a folder for the test");
    assert_eq!(printed("show", &a_folder_for_a_file), "FF00000000\n");
}

#[test]
fn a_file_that_is_too_long_is_judged_by_its_beginning() {
    let line = format!("000100{{}}20{}", "61".repeat(32));
    let longest: Vec<String> =
        (0..129).map(|number| line.replace("{}", &format!("{number:04X}"))).collect();
    let folder = folder("long", &[("master.hex", file(&longest)), ("program.hex", file(&["01"]))]);
    assert_eq!(printed("show", &folder), "0400800000\n");
    assert_eq!(printed("sweep", &folder), "0400800000\n");
}
