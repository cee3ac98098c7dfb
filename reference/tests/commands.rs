//! Calls the built program as a user does and looks at what it prints and how it ends.

use std::io::Write;
use std::process::{Command, Output, Stdio};

/// The built program, which serves as the compared program too.
const REFERENCE: &str = env!("CARGO_BIN_EXE_reference");

/// Runs the program with the arguments and the input.
fn run(arguments: &[&str], input: &[u8]) -> Output {
    let mut child = Command::new(REFERENCE)
        .args(arguments)
        .stdin(Stdio::piped())
        .stdout(Stdio::piped())
        .stderr(Stdio::piped())
        .spawn()
        .expect("the built program starts");
    let mut stdin = child.stdin.take().expect("standard input is piped");
    stdin.write_all(input).expect("the input is read");
    drop(stdin);
    child.wait_with_output().expect("the program ends")
}

fn text(bytes: &[u8]) -> &str {
    std::str::from_utf8(bytes).expect("the program prints text")
}

/// The bytes of the paper's whole period.
const WHOLE_PERIOD: [u8; 37] = [
    0x01, 0x02, 0x02, 0x02, // header
    0x90, 0x4E, 0x01, 0xC0, 0x84, 0x3D, // plants
    0x89, 0x27, 0x01, 0xA0, 0xF7, 0x36, //
    0x01, 0xB4, 0x74, 0x02, // segments
    0x06, 0xB3, 0x74, 0x00, //
    0x00, 0x01, 0x04, 0xD0, 0x0F, 0xDE, 0x02, // lines
    0x01, 0x01, 0x03, 0x65, 0xDA, 0x14,
];

#[test]
fn frames_are_answered_line_by_line() {
    let frames = [
        &[b'N', 1, 0, 0, 0, 0, 0, 0, 0, 3, 0, 0, 0, 0xFF, 0xAC, 0x02][..],
        &[b'N', 7, 0, 0, 0, 0, 0, 0, 0, 0, 0, 0, 0],
    ];
    let output = run(&["answer", "numbers"], &frames.concat());
    assert_eq!(text(&output.stdout), "N 300 1 3\nR 1 7 0\n");
    assert_eq!(output.status.code(), Some(0));
}

#[test]
fn frame_cut_short_is_said() {
    let one_byte_missing = [b'N', 0, 0, 0, 0, 0, 0, 0, 0, 0, 0, 0];
    let output = run(&["answer", "numbers"], &one_byte_missing);
    assert_eq!(text(&output.stdout), "");
    assert!(text(&output.stderr).contains("ends inside a frame"));
    assert_eq!(output.status.code(), Some(2));
}

#[test]
fn frame_of_another_kind_is_said() {
    let number = [b'N', 0, 0, 0, 0, 0, 0, 0, 0, 1, 0, 0, 0, 0x05];
    for (what, came, whole_frames, letter) in [
        ("numbers", period_frame(&[]), 1, "0x4E, the letter N"),
        ("readings", vec![], 0, "0x50, the letter P"),
    ] {
        let output = run(&["answer", what], &[&number[..], &came].concat());
        assert_eq!(text(&output.stdout), "");
        let message = text(&output.stderr);
        assert!(message.ends_with(&format!(
            ", after {whole_frames} whole frames; give only frames that start with {letter}\n"
        )));
        assert_eq!(output.status.code(), Some(2));
    }
}

/// The frame that asks how a period file of less than 256 bytes is read.
fn period_frame(file: &[u8]) -> Vec<u8> {
    let length = u8::try_from(file.len()).expect("the file is short");
    let head = [b'P', 0, 0, 0, 0, 0, 0, 0, 0, length, 0, 0, 0];
    [&head[..], file].concat()
}

#[test]
fn period_files_are_answered_line_by_line() {
    let frames = [&WHOLE_PERIOD[..], &[], &[0x01, 0x00]].map(period_frame);
    let output = run(&["answer", "readings"], &frames.concat());
    assert_eq!(
        text(&output.stdout),
        "A 1 2 2 2 10000 1 1000000 5001 1 900000 1 14900 2 6 14899 0 \
         0 1 4 2000 350 1 1 3 101 2650\nR 1 0 0\nR 5 1 1\n"
    );
    assert_eq!(output.status.code(), Some(0));
}

#[test]
fn period_file_cut_short_is_said() {
    let whole = [period_frame(&[]), period_frame(&[0x01, 0x02])].concat();
    for missing in [1, 2, 3, 14] {
        let output = run(&["answer", "readings"], &whole[..whole.len() - missing]);
        assert_eq!(text(&output.stdout), "");
        let message = text(&output.stderr);
        assert!(message.contains("ends inside a frame, after 1 whole frames; give every frame"));
        assert_eq!(output.status.code(), Some(2));
    }
}

#[test]
fn calls_of_the_historian_are_answered_with_all_they_leave() {
    // Refused: a plant that exports 300 kg and starts at no segment, tables of 3 and 2 bytes.
    let file = [1, 1, 1, 0, 0xAC, 0x02, 0];
    let refused = [&[7, 0, 0, 0, 3, 0, 0, 0, 2, 0, 0, 0][..], &file].concat();
    // Accepted: one plant without export and one store, each table with a spare byte.
    let file = [1, 1, 1, 0, 0, 1, 0, 6, 0, 0];
    let accepted = [&[10, 0, 0, 0, 65, 0, 0, 0, 41, 0, 0, 0][..], &file].concat();
    let output = run(
        &["answer", "historian"],
        &[&refused[..], &accepted].concat(),
    );

    let expected = [
        &[6, 0, 0, 0][..],
        &[5, 0, 0, 0, 0, 0, 0, 0],
        &[6, 0, 0, 0, 0, 0, 0, 0],
        &[90, 107, 124, 165, 194],
        &[0; 20],
        &[0; 64],
        &[154],
        &[0; 32],
        &[1, 0, 0, 0, 0, 0, 0, 0],
        &[45],
    ];
    assert_eq!(output.stdout, expected.concat());
    assert_eq!(output.status.code(), Some(0));
}

#[test]
fn calls_for_sheets_are_answered_with_all_they_leave() {
    // Refused: one reading of three. Accepted: three days, two of them equal.
    let frames = [
        &[3, 0, 0, 0, 0x03, 0xAC, 0x02][..],
        &[5, 0, 0, 0, 0x03, 0xAC, 0x02, 0x09, 0x09],
    ];
    let output = run(&["answer", "historian-days"], &frames.concat());
    let expected = [
        &[1, 0, 0, 0][..],
        &[2, 0, 0, 0, 0, 0, 0, 0],
        &[3, 0, 0, 0, 0, 0, 0, 0],
        &[0xB1; 8],
        &[0xB2; 8],
        &[0xB3; 8],
        &[0xB4; 8],
        &[0xB5; 8],
        &[0; 20],
        &[62, 1, 0, 0, 0, 0, 0, 0],
        &[1, 0, 0, 0, 0, 0, 0, 0],
        &[0; 8],
        &[2, 0, 0, 0, 0, 0, 0, 0],
        &[2, 0, 0, 0, 0, 0, 0, 0],
    ];
    assert_eq!(output.stdout, expected.concat());
    assert_eq!(output.status.code(), Some(0));
}

#[test]
fn calls_that_write_are_answered_with_all_they_leave() {
    // Refused: edition 2, and a spare byte. Accepted: one plant without export and one store.
    let refused = [9, 0, 0, 0, 2, 0, 0, 0, 2, 0, 0, 0, 0, 0, 0, 0, 1];
    let numbers: [u64; 10] = [1, 1, 1, 0, 0, 1, 0, 6, 0, 0];
    let list: Vec<u8> = numbers.iter().flat_map(|n| n.to_le_bytes()).collect();
    let accepted = [&[80, 0, 0, 0, 11, 0, 0, 0][..], &list].concat();
    let output = run(
        &["answer", "historian-write"],
        &[&refused[..], &accepted].concat(),
    );
    let expected = [
        &[4, 0, 0, 0][..],
        &[0; 8],
        &[0; 8],
        &[60, 83],
        &[0, 0, 0, 0],
        &[10, 0, 0, 0, 0, 0, 0, 0],
        &[0; 8],
        &[1, 1, 1, 0, 0, 1, 0, 6, 0, 0],
        &[34],
    ];
    assert_eq!(output.stdout, expected.concat());
    assert_eq!(output.status.code(), Some(0));
}

#[test]
fn text_is_written_as_a_period_file() {
    let typed = b"# the whole period\r\n1 2 2 2\n10000 1 1000000 5001 01 900000\t1 14900 2 \
        6 14899 0#store\n0 1 4 2000 350 1 1 3 101 2650";
    let output = run(&["write"], typed);
    assert_eq!(output.stdout, WHOLE_PERIOD);
    assert_eq!(text(&output.stderr), "");
    assert_eq!(output.status.code(), Some(0));
}

#[test]
fn text_is_written_as_a_sheet() {
    let output = run(&["write-days"], b"3 300 9 9");
    assert_eq!(output.stdout, [0x03, 0xAC, 0x02, 0x09, 0x09]);
    assert_eq!(output.status.code(), Some(0));
}

#[test]
fn text_without_a_file_is_refused_in_one_line() {
    let long = vec![b' '; 131_072];
    for (command, typed, line) in [
        ("write", &b""[..], "R 1 0 0\n"),
        ("write", b"1 2 2\n", "R 1 3 6\n"),
        ("write", b" 1 17", "R 5 1 3\n"),
        ("write", b"1 99999999999999999999999", "R 3 1 2\n"),
        ("write", b"1 2,5", "T 3 44\n"),
        ("write", &long, "L 131071\n"),
        ("write-days", b"", "R 1 0 0\n"),
        ("write-days", b"1 7 # day 1\n8", "R 9 2 12\n"),
        ("write-days", b"367", "R 5 0 0\n"),
        ("write-days", b"1 7.", "T 3 46\n"),
        ("write-days", &long, "L 131071\n"),
    ] {
        let output = run(&[command], typed);
        assert_eq!(text(&output.stdout), line);
        assert_eq!(text(&output.stderr), "");
        assert_eq!(output.status.code(), Some(1));
    }
}

#[test]
fn program_agrees_with_itself() {
    for (what, suites) in [
        ("numbers", 6),
        ("readings", 13),
        ("historian", 17),
        ("historian-days", 15),
        ("historian-write", 12),
    ] {
        let output = run(&["compare", what, "--", REFERENCE, "answer", what], &[]);
        assert_passed(&output, suites);
    }
    for (what, command, suites) in [
        ("rows", "rows", 7),
        ("inspections", "inspect", 14),
        ("days", "days", 11),
        ("writes", "write", 10),
        ("writes-days", "write-days", 11),
    ] {
        let output = run(&["compare", what, "--", REFERENCE, command], &[]);
        assert_passed(&output, suites);
    }
}

/// Asserts that this number of suites passed and none failed.
fn assert_passed(output: &Output, suites: usize) {
    let last = text(&output.stdout).lines().last();
    assert_eq!(last, Some(&format!("{suites} passed, 0 failed")[..]));
    assert_eq!(output.status.code(), Some(0));
}

#[test]
fn program_that_answers_other_questions_fails() {
    let other = ["compare", "readings", "--", REFERENCE, "rows"];
    let output = run(&other, &[]);
    let report = text(&output.stdout);
    assert!(report.contains("expected \"A 1 2 2 2 10000 "));
    assert_eq!(report.lines().last(), Some("0 passed, 13 failed"));
    assert_eq!(output.status.code(), Some(1));
}

#[test]
fn program_that_leaves_the_historian_without_answers_fails() {
    let other = ["compare", "historian", "--", REFERENCE, "rows"];
    let output = run(&other, &[]);
    let report = text(&output.stdout);
    assert!(report.contains("expected refusal 0, place 0 and offset 0, came only 8 of 228 bytes"));
    assert!(report.contains("case 2: bytes [], plant table of 128 bytes, "));
    assert_eq!(report.lines().last(), Some("0 passed, 17 failed"));
    assert_eq!(output.status.code(), Some(1));
}

#[test]
fn program_that_prints_on_standard_error_fails() {
    let other = ["compare", "rows", "--", REFERENCE, "answer", "readings"];
    let output = run(&other, &[]);
    let report = text(&output.stdout);
    assert!(report.contains("standard error is not empty: \"a frame starts with the byte 0x01, "));
    assert_eq!(report.lines().last(), Some("0 passed, 7 failed"));
    assert_eq!(output.status.code(), Some(1));
}

#[test]
fn program_that_prints_other_than_the_page_fails() {
    let other = ["compare", "inspections", "--", REFERENCE, "rows"];
    let output = run(&other, &[]);
    let report = text(&output.stdout);
    assert!(report.contains("line 1: expected \"0 0 1 edition\", came \"P 1 10000 9931 "));
    assert!(report.contains("case 1: 65535 bytes [01 01 01 00 "));
    assert_eq!(report.lines().last(), Some("0 passed, 14 failed"));
    assert_eq!(output.status.code(), Some(1));
}

#[test]
fn program_that_prints_other_than_the_figures_fails() {
    let other = ["compare", "days", "--", REFERENCE, "inspect"];
    let output = run(&other, &[]);
    let report = text(&output.stdout);
    assert!(report.contains("case 1: bytes [01 07]: line 1: expected \"7 0 0 1 1\", came "));
    assert!(report.contains("case 4: 65535 bytes [EE 02 80 D0 AC F3 0E "));
    assert_eq!(report.lines().last(), Some("0 passed, 11 failed"));
    assert_eq!(output.status.code(), Some(1));
}

#[test]
fn program_that_leaves_other_than_the_figures_fails() {
    let other = ["compare", "historian-days", "--", REFERENCE, "rows"];
    let output = run(&other, &[]);
    let report = text(&output.stdout);
    assert!(report.contains(
        "bytes [01 07]: expected refusal 0, place 0 and offset 0, came only 8 of 60 bytes"
    ));
    assert_eq!(report.lines().last(), Some("0 passed, 15 failed"));
    assert_eq!(output.status.code(), Some(1));
}

#[test]
fn program_that_writes_other_than_the_file_fails() {
    let other = ["compare", "writes", "--", REFERENCE, "write-days"];
    let output = run(&other, &[]);
    let report = text(&output.stdout);
    assert!(report.contains("expected 4072 bytes, came "));
    assert!(report.contains(r#"text "2": expected "R 4 0 0", came "R 1 1 1""#));
    assert_eq!(output.status.code(), Some(1));
}

#[test]
fn program_that_leaves_no_list_written_fails() {
    let other = ["compare", "historian-write", "--", REFERENCE, "rows"];
    let output = run(&other, &[]);
    let report = text(&output.stdout);
    assert!(report.contains("expected refusal 0, 37 bytes and place 0, came only "));
    assert_eq!(report.lines().last(), Some("0 passed, 12 failed"));
    assert_eq!(output.status.code(), Some(1));
}

#[test]
fn figures_of_a_sheet_are_written() {
    let sheets = [
        (&[0x01, 0x07][..], "7 0 0 1 1\n"),
        (&[0x06, 0x00, 0x00, 0x05, 0x05, 0xAC, 0x02], "R 1 6 7\n"),
        (
            &[0x06, 0x00, 0x00, 0x05, 0x05, 0xAC, 0x02, 0x00],
            "310 1 1 2 3\n",
        ),
        (&[0x03, 0x00, 0x00, 0x00], "0 0 2 0 0\n"),
    ];
    for (sheet, line) in sheets {
        let output = run(&["days"], sheet);
        assert_eq!(text(&output.stdout), line);
        assert_eq!(text(&output.stderr), "");
        let refused = line.starts_with('R');
        assert_eq!(output.status.code(), Some(i32::from(refused)));
    }
}

#[test]
fn refusal_of_a_sheet_is_written() {
    let files = [
        (&[][..], "R 1 0 0\n"),
        (&[0x02, 0xAC, 0x02, 0x80, 0x00], "R 2 2 3\n"),
        (&[0x01, 0x80, 0x80, 0x80, 0x80, 0x80], "R 3 1 1\n"),
        (&[0xEF, 0x02], "R 5 0 0\n"),
        (&[0x01, 0xAC, 0x02, 0x80], "R 9 2 3\n"),
    ];
    for (file, refusal) in files {
        let output = run(&["days"], file);
        assert_eq!(text(&output.stdout), refusal);
        assert_eq!(output.status.code(), Some(1));
    }
}

#[test]
fn rows_of_an_accepted_file_are_written() {
    let output = run(&["rows"], &WHOLE_PERIOD);
    assert_eq!(
        text(&output.stdout),
        "P 1 10000 9931 69 9931 879 9052 9 0\n\
         P 2 5001 4968 33 4471 90 4381 4 0\n\
         S 1 15001 14900 101 268 3\n\
         S 2 14900 14899 1 0 3\n"
    );
    assert_eq!(output.status.code(), Some(0));
}

/// The whole period with two lines of the first plant: fuel of 5000 g, and so many captured kg.
fn period_with_captured(kg: u8) -> Vec<u8> {
    let fuel = [0x00, 0x01, 0x03, 0x02, 0xC4, 0x13];
    let captured = [0x00, 0x01, 0x09, kg, 0xE8, 0x07];
    [&WHOLE_PERIOD[..24], &captured, &fuel].concat()
}

#[test]
fn captured_fossil_co2_is_taken_from_fuel() {
    for (kg, row) in [
        (0, "P 1 10000 9931 69 9931 5 9926 9 0\n"),
        (4, "P 1 10000 9931 69 9931 1 9930 9 0\n"),
        (5, "P 1 10000 9931 69 9931 0 9931 9 0\n"),
    ] {
        let output = run(&["rows"], &period_with_captured(kg));
        assert!(text(&output.stdout).starts_with(row));
        assert_eq!(output.status.code(), Some(0));
    }
    let output = run(&["rows"], &period_with_captured(6));
    assert_eq!(text(&output.stdout), "R 16 1 36\n");
    assert_eq!(output.status.code(), Some(1));
}

#[test]
fn factor_of_captured_fossil_co2_is_a_field() {
    let mut file = period_with_captured(5);
    file[28] = 0xE9;
    for command in ["rows", "inspect"] {
        let output = run(&[command], &file);
        assert!(text(&output.stdout).contains("R 8 20 28\n"));
        assert_eq!(output.status.code(), Some(1));
    }
}

#[test]
fn page_does_not_look_at_what_is_captured() {
    let output = run(&["inspect"], &period_with_captured(6));
    let page = text(&output.stdout);
    assert!(page.contains("\n18 26 9 line 1 class\n19 27 6 line 1 quantity\n"));
    assert!(page.ends_with("\n25 34 2500 line 2 factor\nE 26 36\n"));
    assert_eq!(output.status.code(), Some(0));
}

#[test]
fn refusal_of_a_file_is_written() {
    let one_byte_more = [&WHOLE_PERIOD[..], &[0x80]].concat();
    for (file, refusal) in [
        (&[][..], "R 1 0 0\n"),
        (&WHOLE_PERIOD[..36], "R 1 25 35\n"),
        (&one_byte_more, "R 9 26 37\n"),
    ] {
        let output = run(&["rows"], file);
        assert_eq!(text(&output.stdout), refusal);
        assert_eq!(output.status.code(), Some(1));
    }
}

#[test]
fn page_of_a_file_is_written_to_its_end() {
    let output = run(&["inspect"], &WHOLE_PERIOD);
    let page = text(&output.stdout);
    assert!(page.starts_with("0 0 1 edition\n1 1 2 plants\n2 2 2 segments\n3 3 2 lines\n"));
    assert!(page.contains("\n5 6 1 plant 1 first segment\n"));
    assert!(page.ends_with("\n25 35 2650 line 2 factor\nE 26 37\n"));
    assert_eq!(page.lines().count(), 27, "no refusal");
    assert_eq!(text(&output.stderr), "");
    assert_eq!(output.status.code(), Some(0));
}

#[test]
fn page_of_a_refused_file_has_the_refusal_before_its_last_line() {
    let pages = [
        (&[][..], "R 1 0 0\nE 0 0\n"),
        (&[0x80], "0 0 - edition: 80 <--\nR 1 0 0\nF 1 0\n"),
        (&[0x02], "0 0 2 edition <--\nR 4 0 0\nE 1 1\n"),
        (
            &[0x02, 0x80, 0x00],
            "0 0 2 edition <--\n1 1 - plants: 80 00\nR 4 0 0\nF 2 1\n",
        ),
        (
            &[0x80; 6],
            "0 0 - edition: 80 80 80 80 80 <--\nR 3 0 0\nF 3 0\n",
        ),
    ];
    for (file, page) in pages {
        let output = run(&["inspect"], file);
        assert_eq!(text(&output.stdout), page);
        assert_eq!(text(&output.stderr), "");
        assert_eq!(output.status.code(), Some(1));
    }
}

#[test]
fn page_goes_on_after_the_last_number() {
    let output = run(&["inspect"], &[&WHOLE_PERIOD[..], &[0x80]].concat());
    let page = text(&output.stdout);
    assert!(page.ends_with("\n26 37 - after the last number: 80 <--\nR 9 26 37\nF 1 26\n"));
    assert_eq!(page.lines().count(), 29);
    assert_eq!(output.status.code(), Some(1));
}

#[test]
fn page_does_not_look_at_the_accounts() {
    // The first outflow is 15,002 kg of 15,001.
    let mut file = WHOLE_PERIOD;
    file[17] = 0x9A;
    file[18] = 0x75;
    assert_eq!(text(&run(&["rows"], &file).stdout), "R 12 1 37\n");
    let output = run(&["inspect"], &file);
    let page = text(&output.stdout);
    assert!(page.contains("\n11 17 15002 segment 1 metered outflow\n"));
    assert!(page.ends_with("\n25 35 2650 line 2 factor\nE 26 37\n"));
    assert_eq!(output.status.code(), Some(0));
}

#[test]
fn page_of_a_file_that_is_cut_says_so() {
    let output = run(&["inspect"], &[0x01; 65_536]);
    let page = text(&output.stdout);
    assert!(page.contains("\n9 9 1 segment 1 next segment <--\n"));
    assert!(page.ends_with("\n65534 65534 1 after the last number\nR 7 9 9\nC 65535 65535\n"));
    assert_eq!(text(&output.stderr), "");
    assert_eq!(output.status.code(), Some(2));
}

#[test]
fn cases_of_periods_are_written_one_to_a_line() {
    let output = run(&["cases", "periods", "7", "40"], &[]);
    let lines: Vec<&str> = text(&output.stdout).lines().collect();
    assert_eq!(lines.len(), 40);
    assert!(lines[0].starts_with("16 10 01020202904E01C0843D"));
    assert!(lines[0].ends_with(
        " A 10000 9931 69 9931 879 9052 9 0 5001 4968 33 4471 90 4381 4 0 | \
         15001 14900 101 268 3 14900 14899 1 0 3"
    ));
    assert_eq!(lines[1], "16 10 - R 1 0 0");
    assert_eq!(lines[3], "16 10 8000 R 2 0 0");
    assert!(lines[14].ends_with(" R 14 16 37"));
    assert!(lines[15].contains(" A 10000 9931 69 9931 0 9931 9 0 "));
    assert_eq!(output.status.code(), Some(0));

    let none = run(&["cases", "periods", "7", "0"], &[]);
    assert_eq!(text(&none.stdout), "");
}

#[test]
fn cases_of_sheets_are_written_one_to_a_line() {
    let output = run(&["cases", "sheets", "7", "100"], &[]);
    let lines: Vec<&str> = text(&output.stdout).lines().collect();
    assert_eq!(lines.len(), 100);
    assert_eq!(lines[0], "0107 A 7 0 0 1 1");
    assert_eq!(lines[12], "050304040303 A 17 2 0 2 2");
    assert!(lines.contains(&"- R 1 0 0"));
    assert!(lines.contains(&"010580 R 9 2 2"));
    let year = |line: &&&str| line.starts_with("EE02") && line.contains(" A ");
    assert!(lines.iter().filter(year).count() > 0);
    assert_eq!(output.status.code(), Some(0));

    let none = run(&["cases", "sheets", "7", "0"], &[]);
    assert_eq!(text(&none.stdout), "");
}

#[test]
fn program_that_answers_nothing_fails_every_suite() {
    let output = run(&["compare", "numbers", "--", REFERENCE], &[]);
    let report = text(&output.stdout);
    assert!(report.contains("too few answers: 0 for 65792 cases"));
    assert!(report.contains("the program ended with"));
    assert_eq!(report.lines().last(), Some("0 passed, 6 failed"));
    assert_eq!(output.status.code(), Some(1));
}

#[test]
fn program_that_cannot_start_is_said_in_one_line() {
    let output = run(&["compare", "numbers", "--", "no such program"], &[]);
    let message = text(&output.stderr);
    assert!(message.starts_with("cannot run no such program: "));
    assert_eq!(message.lines().count(), 1);
    assert_eq!(output.status.code(), Some(2));
}

#[test]
fn bad_usage_prints_how_to_call() {
    let bad: [&[&str]; 38] = [
        &[],
        &["answer"],
        &["answer", "numbers", "more"],
        &["compare", "numbers"],
        &["compare", "numbers", "--"],
        &["compare", "numbers", REFERENCE, "answer", "numbers"],
        &["compare", "periods", "--", REFERENCE],
        &["compare", "readings"],
        &["compare", "historian"],
        &["compare", "rows", "--"],
        &["compare", "rows", REFERENCE, "rows"],
        &["compare", "inspections"],
        &["compare", "inspections", "--"],
        &["compare", "inspect", "--", REFERENCE, "inspect"],
        &["answer", "rows"],
        &["answer", "inspections"],
        &["rows", "more"],
        &["inspect", "more"],
        &["cases"],
        &["cases", "periods", "1"],
        &["cases", "periods", "one", "2"],
        &["cases", "periods", "1", "-2"],
        &["cases", "numbers", "1", "2"],
        &["compare", "days"],
        &["compare", "days", "--"],
        &["compare", "sheets", "--", REFERENCE, "days"],
        &["compare", "historian-days", REFERENCE],
        &["answer", "days"],
        &["answer", "historian-days", "more"],
        &["days", "more"],
        &["cases", "sheets", "1"],
        &["cases", "sheets", "1", "two"],
        &["write", "more"],
        &["write-days", "more"],
        &["writes"],
        &["answer", "writes"],
        &["compare", "writes", "--"],
        &["compare", "write", "--", REFERENCE, "write"],
    ];
    for arguments in bad {
        let output = run(arguments, &[]);
        assert!(text(&output.stderr).starts_with("usage: "), "{arguments:?}");
        assert_eq!(output.status.code(), Some(2), "{arguments:?}");
    }
}

#[test]
fn usage_names_every_command() {
    let output = run(&[], &[]);
    let usage = text(&output.stderr);
    for command in [
        "reference answer numbers|readings|historian|historian-days|historian-write\n",
        "reference compare numbers|readings -- PROGRAM [ARGS..]\n",
        "reference compare historian|historian-days|historian-write -- PROGRAM [ARGS..]\n",
        "reference compare writes|writes-days -- PROGRAM [ARGS..]\n",
        "reference write\n",
        "reference write-days\n",
        "reference compare rows -- PROGRAM [ARGS..]\n",
        "reference compare inspections -- PROGRAM [ARGS..]\n",
        "reference compare days -- PROGRAM [ARGS..]\n",
        "reference rows\n",
        "reference inspect\n",
        "reference days\n",
        "reference cases periods SEED COUNT\n",
        "reference cases sheets SEED COUNT\n",
    ] {
        assert!(usage.contains(command), "{command}");
    }
    assert!(usage.contains("a refusal is printed in one line: R, its number, its place, and "));
}
