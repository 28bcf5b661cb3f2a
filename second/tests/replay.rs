//! The stream of `replay`: what it writes, and where it gives up.

mod common;

use common::{M, P, file};
use second::committed;
use second::replay::replay;
use second::rules::Rules;
use second::stream::{self, Call, Case, Next};

fn written(stream: &[u8]) -> Vec<u8> {
    let mut output = Vec::new();
    replay(&mut &stream[..], &mut output, &Rules::document()).expect("writing to memory");
    output
}

fn stream_of(cases: &[Case]) -> Vec<u8> {
    let mut stream = Vec::new();
    cases.iter().for_each(|case| case.write(&mut stream));
    stream
}

fn example_1() -> Case {
    Case::with_least_rooms(Call::Show, file(&M), file(&P), Vec::new())
}

const ANSWER_1: &str = "0000000022\n0001000002026869\n0001000004026C6F\n00\n";

#[test]
fn each_case_gets_its_reply_its_output_and_its_buffers_line() {
    let stream = stream_of(&[example_1(), example_1()]);
    assert_eq!(written(&stream), ANSWER_1.repeat(2).as_bytes());
    assert_eq!(written(&[]), b"");
}

#[test]
fn a_refused_case_has_no_output_lines() {
    let short = Case { second_room: 16_383, ..example_1() };
    assert_eq!(written(&stream_of(&[short])), b"0100000000\n00\n");
}

#[test]
fn an_unknown_call_ends_the_replay() {
    for call in [0x00, 0x03, 0x05, 0xFF] {
        let stream = [stream_of(&[example_1()]), vec![call], stream_of(&[example_1()])].concat();
        assert_eq!(written(&stream), format!("{ANSWER_1}FF\n").as_bytes());
    }
}

#[test]
fn an_input_that_ends_inside_a_case_ends_the_replay() {
    let stream = stream_of(&[example_1()]);
    for length in 1..stream.len() {
        assert_eq!(written(&stream[..length]), b"FF\n", "{length} bytes");
    }
}

#[test]
fn rooms_and_lengths_are_honoured_up_to_their_limits() {
    let honoured = Case {
        output_room: 16_384,
        second_room: 20_480,
        master: vec![b'0'; 16_384],
        ..example_1()
    };
    assert_eq!(written(&stream_of(std::slice::from_ref(&honoured))), b"0400000000\n00\n");
    let too_much = [
        Case { output_room: 16_385, ..honoured.clone() },
        Case { second_room: 20_481, ..honoured.clone() },
        Case { master: vec![b'0'; 16_385], ..honoured.clone() },
        Case { program: vec![b'0'; 16_385], ..honoured.clone() },
        Case { call: Call::PutBack, view: vec![b'0'; 16_385], ..honoured },
    ];
    for case in too_much {
        assert_eq!(written(&stream_of(&[case])), b"FF\n");
    }
}

#[test]
fn a_sweep_has_its_number_lines_behind_its_lines() {
    let deleted = Case::sweep(file(&["00010200000178", "00010100010179"]));
    let answer = b"000000000F\n00010000000179\nFFFF\n0000\n00\n";
    assert_eq!(written(&stream_of(std::slice::from_ref(&deleted))), answer);
    let with_other_files = Case { program: vec![b'x'], view: vec![b'y'], ..deleted };
    assert_eq!(written(&stream_of(&[with_other_files])), answer);
}

#[test]
fn a_sweep_is_call_04_and_its_head_is_that_of_the_others() {
    let head = b"\x04\0\0\x26\x80\0\0\x02\x80\0\x0F\0\0\0\0";
    let stream = [&head[..], b"00010200000178\n"].concat();
    assert_eq!(written(&stream), b"0000000000\nFFFF\n00\n");
    for length in 1..stream.len() {
        assert_eq!(written(&stream[..length]), b"FF\n", "{length} bytes");
    }
}

#[test]
fn the_second_room_of_a_sweep_is_honoured_up_to_16_384_bytes() {
    let sweep = Case { output_room: 16_384, second_room: 16_384, ..Case::sweep(Vec::new()) };
    assert_eq!(written(&stream_of(std::slice::from_ref(&sweep))), b"0000000000\n00\n");
    let too_much = [
        Case { output_room: 16_385, ..sweep.clone() },
        Case { second_room: 16_385, ..sweep.clone() },
        Case { master: vec![b'0'; 16_385], ..sweep.clone() },
        Case { program: vec![b'0'; 16_385], ..sweep },
    ];
    for case in too_much {
        assert_eq!(written(&stream_of(&[case])), b"FF\n");
    }
}

#[test]
fn the_committed_stream_is_replayed_alike_each_time() {
    let stream = stream_of(&committed::cases());
    let once = written(&stream);
    assert_eq!(once, written(&stream));
    assert!(!once.ends_with(b"FF\n"));
}

#[test]
fn cases_come_back_from_the_stream_as_they_were() {
    let cases = committed::cases();
    let stream = stream_of(&cases);
    let mut input = &stream[..];
    for case in cases {
        assert_eq!(stream::read(&mut input), Next::Case(case));
    }
    assert_eq!(stream::read(&mut input), Next::End);
}
