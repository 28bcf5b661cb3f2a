//! Shows and put backs at the edges of request #104, and the reply that it asks for to each,
//! written by hand. The padding of a text is the spaces behind its last other byte.

use super::bench::{done, put_back, refused, show};
use super::edge::{
    Edge, all_with_mark, both_compared, chosen_in_a, contents_of, each_with_each, edge,
    elements_with, in_each_order, inside, made_text, text_line, with_mark,
};
use crate::calls::Reply;

const SPACES: &[u8] = &[b' '; 32];
const SPACES_BUT_ONE: &[u8] = SPACES.split_at(31).0;

/// A byte and 31 spaces.
const X_PADDED: &[u8] = b"x                               ";
const X_PADDED_LESS: &[u8] = X_PADDED.split_at(31).0;

/// 31 bytes and a space.
const LONG_PADDED: &[u8] = b"Blower 1 outlet temperature low ";
const LONG: &[u8] = LONG_PADDED.split_at(31).0;

const EMPTY: [&str; 0] = [];
const WHOLE: [&str; 1] = ["01"];
const TWICE: [&str; 3] = ["09", "01", "01"];
const SLOT_TWICE: [&str; 4] = ["0C00", "09", "0500", "0500"];

type Pair = (&'static str, &'static [u8], &'static [u8]);

pub fn edges() -> Vec<Edge> {
    let in_order = [
        texts_that_agree(),
        spaces_elsewhere(),
        other_bytes_behind(),
        other_words(),
        texts_that_are_kept(),
        several_texts(),
        tests_in_tests(),
        stops(),
        tags(),
        differing_views(),
        changed_copies(),
        saved_lines(),
        compared_texts(),
        compared_texts_with_less_padding(),
        compared_in_passing(),
        both_texts_of_a_test(),
        branches(),
        branches_with_the_compared_text(),
        branches_of_other_lengths(),
        full_masters(),
    ];
    in_order.into_iter().flatten().collect()
}

fn texts_that_agree() -> Vec<Edge> {
    let pairs: [Pair; 32] = [
        ("no padding", b"hi-lo", b"hi-lo"),
        ("a space", b"hi-lo ", b"hi-lo"),
        ("two spaces", b"hi-lo  ", b"hi-lo"),
        ("several spaces", b"hi-lo        ", b"hi-lo"),
        ("a space each", b"hi-lo ", b"hi-lo "),
        ("a space and two", b"hi-lo ", b"hi-lo  "),
        ("three spaces and seven", b"hi-lo   ", b"hi-lo       "),
        ("one byte", b"h ", b"h"),
        ("nothing", b"", b""),
        ("a space for nothing", b" ", b""),
        ("two spaces for nothing", b"  ", b""),
        ("several spaces for nothing", b"        ", b""),
        ("32 spaces for nothing", SPACES, b""),
        ("a space alone each", b" ", b" "),
        ("a space alone and two", b" ", b"  "),
        ("a space alone and 32", b" ", SPACES),
        ("31 spaces and 32", SPACES_BUT_ONE, SPACES),
        ("32 spaces each", SPACES, SPACES),
        ("31 spaces behind a byte", X_PADDED, b"x"),
        ("31 spaces and 30", X_PADDED, X_PADDED_LESS),
        ("31 bytes and a space", LONG_PADDED, LONG),
        ("32 bytes", b"Blower 1 outlet temperature high", b"Blower 1 outlet temperature high"),
        ("a space in front of both", b" hi ", b" hi"),
        ("a space inside both", b"h i ", b"h i"),
        ("spaces everywhere", b"  h  i  ", b"  h  i "),
        ("byte 00 before the padding", b"hi\0 ", b"hi\0"),
        ("byte 00 alone", b"\0  ", b"\0"),
        ("byte 09 before the padding", b"hi\t ", b"hi\t"),
        ("a space before byte 09", b"hi \t  ", b"hi \t"),
        ("byte 0A before the padding", b"hi\n ", b"hi\n"),
        ("byte A0 before the padding", b"hi\xA0 ", b"hi\xA0"),
        ("bytes 1F and 21 before the padding", b"\x1F!  ", b"\x1F! "),
    ];
    pairs.into_iter().flat_map(|pair| compared(pair, true)).collect()
}

/// Spaces in front of a text and inside it are no padding.
fn spaces_elsewhere() -> Vec<Edge> {
    let pairs: [Pair; 11] = [
        ("a space in front", b" hi", b"hi"),
        ("spaces in front", b"   hi", b"hi"),
        ("a space in front, and one behind", b" hi", b"hi "),
        ("a space in front of the padded one", b" hi ", b"hi"),
        ("a space inside", b"h i", b"hi"),
        ("a space inside the padded one", b"h i ", b"hi"),
        ("a space inside, and one behind", b"h i", b"hi "),
        ("two spaces inside, and one", b"h  i", b"h i"),
        ("bytes behind a space", b"hi lo", b"hi"),
        ("other bytes behind a space", b"hi lo", b"hi hi"),
        ("31 spaces before a byte", b"                               x", b"x"),
    ];
    different(&pairs)
}

/// No byte but 20 is padding, wherever it stands among spaces.
fn other_bytes_behind() -> Vec<Edge> {
    let pairs: [Pair; 26] = [
        ("byte 09 behind", b"hi\t", b"hi"),
        ("byte 0A behind", b"hi\n", b"hi"),
        ("byte 0B behind", b"hi\x0B", b"hi"),
        ("byte 0C behind", b"hi\x0C", b"hi"),
        ("byte 0D behind", b"hi\r", b"hi"),
        ("byte 00 behind", b"hi\0", b"hi"),
        ("byte 1F behind", b"hi\x1F", b"hi"),
        ("byte 21 behind", b"hi!", b"hi"),
        ("byte 85 behind", b"hi\x85", b"hi"),
        ("byte A0 behind", b"hi\xA0", b"hi"),
        ("bytes C2 A0 behind", b"hi\xC2\xA0", b"hi"),
        ("byte FF behind", b"hi\xFF", b"hi"),
        ("byte 09 behind a space", b"hi \t", b"hi"),
        ("byte 00 behind a space", b"hi \0", b"hi"),
        ("byte A0 behind a space", b"hi \xA0", b"hi"),
        ("byte 09 before a space", b"hi\t ", b"hi"),
        ("byte 0A before a space", b"hi\n ", b"hi"),
        ("byte 0D before spaces", b"hi\r  ", b"hi"),
        ("byte 00 before a space", b"hi\0 ", b"hi"),
        ("byte A0 before a space", b"hi\xA0 ", b"hi"),
        ("byte 09 for a space", b"hi\t", b"hi "),
        ("byte 00 for nothing", b"\0", b""),
        ("byte 00 for a space", b"\0", b" "),
        ("byte 09 for nothing", b"\t", b""),
        ("byte 0A and a space for nothing", b"\n ", b""),
        ("byte 00 behind a space for nothing", b" \0", b""),
    ];
    different(&pairs)
}

/// Texts that differ before their padding.
fn other_words() -> Vec<Edge> {
    let pairs: [Pair; 19] = [
        ("a byte for nothing", b"h", b""),
        ("two bytes for two spaces", b"hi", b"  "),
        ("a byte for 32 spaces", b"x", SPACES),
        ("a byte less", b"h ", b"hi"),
        ("a byte more, the other padded", b"hi-lo", b"hi "),
        ("another first byte", b"li", b"hi"),
        ("another first byte, one padded", b"li ", b"hi"),
        ("another last byte", b"ho", b"hi"),
        ("another last byte, both padded", b"ho ", b"hi "),
        ("another byte between", b"hi-lo ", b"hi+lo"),
        ("another byte alone", b"h ", b"i"),
        ("the bytes exchanged", b"hi ", b"ih"),
        ("upper case", b"HI ", b"hi"),
        ("an upper case first byte", b"Hi", b"hi "),
        ("an upper case last byte, both padded", b"hI ", b"hi  "),
        ("31 spaces behind another byte", X_PADDED, b"y"),
        ("31 bytes and a space for 30", LONG_PADDED, b"Blower 1 outlet temperature lo"),
        (
            "31 bytes and a space, another first byte",
            LONG_PADDED,
            b"blower 1 outlet temperature low",
        ),
        (
            "31 bytes and a space, another last byte",
            LONG_PADDED,
            b"Blower 1 outlet temperature lot",
        ),
    ];
    different(&pairs)
}

fn different(pairs: &[Pair]) -> Vec<Edge> {
    pairs.iter().flat_map(|&pair| compared(pair, false)).collect()
}

/// Two texts compared, each with the other, if they are two: one from the master with one of the
/// program, and both from the master, where each also agrees with itself.
fn compared((what, one, other): Pair, agree: bool) -> Vec<Edge> {
    let with_made = |source, made| {
        let line = text_line("00", 0, source);
        let shown = if agree { vec![&line] } else { vec![] };
        let program = ["0B", "11", &made_text(made), "01", "02"];
        edge(what, show(&[&line], &program), done(&shown))
    };
    let both = [text_line("00", 0, one), text_line("00", 1, other)];
    let shown = if agree { [both.clone(), both.clone()].concat() } else { both.to_vec() };
    let in_slots = edge(what, show(&both, &each_with_each()), done(&shown));
    in_each_order([one, other])
        .into_iter()
        .map(|[source, made]| with_made(source, made))
        .chain([in_slots])
        .collect()
}

/// A text is shown and returned with its padding, and a marked one is compared like any other.
fn texts_that_are_kept() -> Vec<Edge> {
    let padded = text_line("00", 0, b"hi ");
    let [changed, deleted] = ["01", "02"].map(|mark| with_mark(&padded, mark));
    let made = text_line("00", 0xFFFF, b"hi ");
    let is_hi = ["0B", "11", "03026869", "01", "02"];
    vec![
        edge("shown", show(&[&padded], &WHOLE), done(&[&padded])),
        edge("put back", put_back(&[&padded], &WHOLE, &[&padded]), done(&[&padded])),
        edge("a text of the program", show(&EMPTY, &["0303686920"]), done(&[made])),
        edge("marked as changed", show(&[&changed], &is_hi), done(&[&changed])),
        edge("marked as deleted", show(&[&deleted], &is_hi), done(&[&deleted])),
    ]
}

/// Of several texts those that agree with one of the program.
fn several_texts() -> Vec<Edge> {
    let texts: [&[u8]; 10] =
        [b"hi", b"hi ", b"lo", b"", b"hi\t", b" ", b" hi", b"hi    ", b"   ", b"hi \0"];
    let master: Vec<String> =
        texts.iter().zip(0..).map(|(text, number)| text_line("00", number, text)).collect();
    let agreeing = |what, text: &[u8], places: &[usize]| {
        let program = ["0A", "0B", "11", &made_text(text), "01", "02"];
        let shown: Vec<&String> = places.iter().map(|&place| &master[place]).collect();
        edge(what, show(&master, &program), done(&shown))
    };
    vec![
        agreeing("with a text", b"hi", &[0, 1, 7]),
        agreeing("with a padded text", b"hi  ", &[0, 1, 7]),
        agreeing("with no byte", b"", &[3, 5, 8]),
        agreeing("with spaces alone", b"  ", &[3, 5, 8]),
        agreeing("with byte 09 behind", b"hi\t ", &[4]),
        agreeing("with a space in front", b" hi ", &[6]),
        agreeing("with none", b"h", &[]),
    ]
}

/// X of a test has a test of its own, which the padding decides.
fn tests_in_tests() -> Vec<Edge> {
    let answers = |what, source: &[u8], asked: &[u8], shown: bool| {
        let line = text_line("00", 0, source);
        let x = ["08", &made_text(asked), "0B", "11", "03026869", "03026F6E", "03036F6666"];
        let program = [&["0B", "11"], &x[..], &["01", "02"]].concat();
        let shown = if shown { vec![&line] } else { vec![] };
        edge(what, show(&[&line], &program), done(&shown))
    };
    vec![
        answers("on, for a padded text", b"on", b"hi ", true),
        answers("on padded, for a padded text", b"on  ", b"hi   ", true),
        answers("off, for a padded text", b"off", b"hi ", false),
        answers("off padded, for another byte behind", b"off ", b"hi\t", true),
    ]
}

/// Nothing is not the empty text, and an element is no text.
fn stops() -> Vec<Edge> {
    let spaces = text_line("00", 0, b"  ");
    vec![
        edge("X is nothing", show(&[&spaces], &["0B", "11", "02", "01", "02"]), refused(6, 1)),
        edge(
            "the source is nothing",
            show(&EMPTY, &["0B", "11", "0300", "01", "02"]),
            refused(6, 1),
        ),
        edge(
            "X is an element",
            show(&[&spaces], &["0B", "11", "040177", "01", "02"]),
            refused(6, 1),
        ),
        edge(
            "the source is an element",
            show(&["00020000000177"], &["0B", "11", "03027720", "01", "02"]),
            refused(6, 1),
        ),
    ]
}

/// A tag has no byte 20, so that no tag is padded.
fn tags() -> Vec<Edge> {
    let element = ["00020000000177"];
    let padded = ["0002000000027720"];
    vec![
        edge("of the master", show(&padded, &WHOLE), refused(4, 0)),
        edge("of the view", put_back(&element, &WHOLE, &padded), refused(8, 0)),
        edge("of 04", show(&element, &["04027720"]), refused(2, 0)),
        edge("of 12", show(&element, &["0B", "12027720", "01", "02"]), refused(2, 1)),
        edge("without padding", show(&element, &["0B", "120177", "01", "02"]), done(&element)),
    ]
}

/// A line that is not marked 01 has its padding, and no other.
fn differing_views() -> Vec<Edge> {
    let pairs: [Pair; 6] = [
        ("a space less", b"hi ", b"hi"),
        ("a space more", b"hi", b"hi "),
        ("another padding", b"hi   ", b"hi "),
        ("nothing for a space", b" ", b""),
        ("a space for nothing", b"", b" "),
        ("31 spaces for 32", SPACES, SPACES_BUT_ONE),
    ];
    let compared = ["0A", "0B", "11", "03036C6F20", "01", "01"];
    let edges_of = |(what, fresh, other): Pair| {
        let master = [text_line("00", 0, b"lo"), text_line("00", 1, fresh)];
        let [untouched, changed, deleted] =
            ["00", "01", "02"].map(|mark| text_line(mark, 1, other));
        let back = |program: &[&str], line| put_back(&master, program, &[&master[0], line]);
        [
            edge(what, back(&WHOLE, &untouched), refused(9, 1)),
            edge(what, back(&WHOLE, &deleted), refused(9, 1)),
            edge(what, back(&WHOLE, &changed), done(&[&master[0], &changed])),
            edge(what, back(&compared, &untouched), refused(9, 1)),
            edge(what, back(&compared, &deleted), refused(9, 1)),
            edge(what, back(&compared, &changed), refused(11, 1)),
        ]
    };
    let made = |view: &str| put_back(&EMPTY, &["0303686920"], &[view]);
    let of_the_program = [
        edge("a text of the program", made("000100FFFF026869"), refused(9, 0)),
        edge("a text of the program, deleted", made("000102FFFF026869"), refused(9, 0)),
        edge("a text of the program, changed", made("000101FFFF026869"), refused(10, 0)),
        edge("a text of the program, saved", made("000101FFFF03686920"), refused(10, 0)),
    ];
    pairs.into_iter().flat_map(edges_of).chain(of_the_program).collect()
}

/// Changes of one node are merged byte for byte, padding and all.
fn changed_copies() -> Vec<Edge> {
    let copies = |what, old: &[u8], edits: [(&str, &[u8]); 2], reply: Reply| {
        let fresh = text_line("00", 0, old);
        let [one, other] = edits.map(|(mark, text)| text_line(mark, 0, text));
        let case = |program: &[&str], view: [&String; 2]| {
            edge(what, put_back(&[&fresh], program, &view), reply.clone())
        };
        in_each_order([&one, &other])
            .into_iter()
            .flat_map(|view| [case(&TWICE, view), case(&SLOT_TWICE, view)])
            .collect::<Vec<Edge>>()
    };
    let changed = |what, one: &'static [u8], other, reply| {
        copies(what, b"x", [("01", one), ("01", other)], reply)
    };
    let to = |text| done(&[text_line("01", 0, text)]);
    let clash = || refused(11, 0);
    let in_order = [
        changed("one of them padded", b"hi", b"hi ", clash()),
        changed("padded in two ways", b"hi ", b"hi   ", clash()),
        changed("padded alike", b"hi ", b"hi ", to(b"hi ")),
        changed("nothing and a space", b"", b" ", clash()),
        changed("a space and two", b" ", b"  ", clash()),
        changed("a space each", b" ", b" ", to(b" ")),
        changed("31 spaces and 32", SPACES_BUT_ONE, SPACES, clash()),
        changed("31 bytes, one of them padded", LONG, LONG_PADDED, clash()),
        copies("untouched, and a space less", b"hi ", [("00", b"hi "), ("01", b"hi")], to(b"hi")),
        copies("saved, and a space less", b"hi ", [("01", b"hi "), ("01", b"hi")], to(b"hi")),
        copies("saved, and a space more", b"hi", [("01", b"hi"), ("01", b"hi ")], to(b"hi ")),
        copies("a space less, and one more", b"hi ", [("01", b"hi"), ("01", b"hi  ")], clash()),
        copies("a space less, and deleted", b"hi ", [("01", b"hi"), ("02", b"hi ")], clash()),
    ];
    in_order.concat()
}

/// A line marked 01 is untouched if it has the old text with its padding, and no other.
fn saved_lines() -> Vec<Edge> {
    let texts: [(&str, &[u8]); 8] = [
        ("a space", b"hi "),
        ("several spaces", b"hi     "),
        ("a space alone", b" "),
        ("spaces alone", b"    "),
        ("31 spaces alone", SPACES_BUT_ONE),
        ("30 spaces behind a byte", X_PADDED_LESS),
        ("spaces around", b" hi "),
        ("byte 09 before a space", b"hi\t "),
    ];
    let edges_of = |(what, text): (_, &[u8])| {
        let master = [text_line("00", 0, text)];
        let back = |view: String| put_back(&master, &WHOLE, &[view]);
        let less = text_line("01", 0, &text[..text.len() - 1]);
        let more = text_line("01", 0, &[text, b" "].concat());
        [
            edge(what, back(with_mark(&master[0], "01")), done(&master)),
            edge(what, back(less.clone()), done(&[less])),
            edge(what, back(more.clone()), done(&[more])),
        ]
    };
    texts.into_iter().flat_map(edges_of).collect()
}

/// The whole text is locked, whatever the test said: neither it nor its padding may be edited.
fn compared_texts() -> Vec<Edge> {
    let pairs: [Pair; 8] = [
        ("padded", b"hi ", b"hi"),
        ("compared with a padded one", b"hi", b"hi "),
        ("both padded", b"hi ", b"hi   "),
        ("spaces alone", b" ", b""),
        ("no byte", b"", b"  "),
        ("padded, and different", b"hi ", b"lo"),
        ("with a byte 09 behind, and different", b"hi\t", b"hi "),
        ("with a space in front, and different", b" hi", b"hi"),
    ];
    let edges_of = |(what, text, made): Pair| {
        let master = [text_line("00", 0, b"lo"), text_line("00", 1, text)];
        let program = ["0A", "0B", "11", &made_text(made), "01", "01"];
        let back = |view: String| put_back(&master, &program, &[&master[0], &view]);
        let to = |text: &[u8]| back(text_line("01", 1, text));
        let clash = |case| edge(what, case, refused(11, 1));
        let first_edited = [text_line("01", 0, b"lo "), text_line("01", 1, b"x")];
        [
            edge(what, back(master[1].clone()), done(&master)),
            edge(what, to(text), done(&master)),
            clash(to(&[text, b" "].concat())),
            clash(to(&[text, b"   "].concat())),
            clash(to(b"x")),
            clash(back(with_mark(&master[1], "02"))),
            edge(what, put_back(&master, &program, &first_edited), refused(11, 0)),
        ]
    };
    pairs.into_iter().flat_map(edges_of).collect()
}

/// A compared text may not lose padding either.
fn compared_texts_with_less_padding() -> Vec<Edge> {
    let less = |what, text: &[u8], made, new: &[u8]| {
        let master = [text_line("00", 0, text)];
        let program = ["0B", "11", made, "01", "01"];
        edge(what, put_back(&master, &program, &[text_line("01", 0, new)]), refused(11, 0))
    };
    vec![
        less("a space less", b"hi ", "03026869", b"hi"),
        less("a space less of several", b"hi   ", "03026869", b"hi  "),
        less("no space of several", b"hi   ", "03026869", b"hi"),
        less("a space less, as the other text has", b"hi  ", "0303686920", b"hi "),
        less("nothing for spaces alone", b"  ", "0300", b""),
        less("a space for spaces alone", b"  ", "0300", b" "),
        less("a space less, and different", b"hi ", "03026C6F", b"hi"),
    ]
}

/// The comparison is in a part that is lost, or of one text among others.
fn compared_in_passing() -> Vec<Edge> {
    let line = text_line;
    let texts = [line("00", 0, b"hi "), line("00", 1, b"lo ")];
    let lost = ["09", "01", "08", "0A", "0B", "11", "03026869", "01", "02", "02"];
    let back_lost = |view: &[String]| put_back(&texts, &lost, view);
    let [hi, lo] = [line("00", 1, b"hi "), line("00", 3, b"lo ")];
    let lo_less = line("01", 3, b"lo");
    let elements = elements_with(&[&hi, &lo]);
    let only_in_a = ["0A", "0B", "120161", "08", "06", "0B", "11", "03026869", "01", "01", "06"];
    let back_one = |view: &[&str]| put_back(&elements, &only_in_a, view);
    vec![
        edge("lost, both saved", back_lost(&all_with_mark(&texts, "01")), done(&texts)),
        edge(
            "lost, the first a space less",
            back_lost(&[line("01", 0, b"hi"), texts[1].clone()]),
            refused(11, 0),
        ),
        edge(
            "lost, the second a space less",
            back_lost(&[texts[0].clone(), line("01", 1, b"lo")]),
            refused(11, 1),
        ),
        edge(
            "the other one a space less",
            back_one(&[&hi, &lo_less]),
            done(&elements_with(&[&hi, &lo_less])),
        ),
        edge(
            "the compared one a space less",
            back_one(&[&line("01", 1, b"hi"), &lo_less]),
            refused(11, 1),
        ),
    ]
}

/// Node 3 is the source of test 11 and node 1 the result of its X; both are shown.
fn both_texts_of_a_test() -> Vec<Edge> {
    let pairs: [Pair; 5] = [
        ("the source padded", b"x ", b"x"),
        ("the result padded", b"x", b"x "),
        ("both padded", b"x  ", b"x "),
        ("nothing and spaces", b"", b"  "),
        ("different", b"x ", b"y "),
    ];
    let edges_of = |(what, source, result): Pair| {
        let fresh = [text_line("00", 3, source), text_line("00", 1, result)];
        let master = elements_with(&[&fresh[1], &fresh[0]]);
        let back = |view: [&str; 2]| put_back(&master, &both_compared(), &view);
        let saved = fresh.each_ref().map(|line| with_mark(line, "01"));
        let gone = fresh.each_ref().map(|line| with_mark(line, "02"));
        let padded = [
            text_line("01", 3, &[source, b" "].concat()),
            text_line("01", 1, &[result, b" "].concat()),
        ];
        let accepted = |view| edge(what, back(view), done(&master));
        let source_clashes = |view| edge(what, back(view), refused(11, 3));
        let result_clashes = |view| edge(what, back(view), refused(11, 1));
        [
            accepted([&fresh[0], &fresh[1]]),
            accepted([&saved[0], &saved[1]]),
            source_clashes([&padded[0], &fresh[1]]),
            source_clashes([&padded[0], &saved[1]]),
            source_clashes([&gone[0], &fresh[1]]),
            result_clashes([&fresh[0], &padded[1]]),
            result_clashes([&saved[0], &padded[1]]),
            result_clashes([&fresh[0], &gone[1]]),
            result_clashes([&padded[0], &padded[1]]),
        ]
    };
    pairs.into_iter().flat_map(edges_of).collect()
}

/// The text in element a chooses between those in b and c: putting back goes where showing went.
fn branches() -> Vec<Edge> {
    let [x, y] = [text_line("00", 3, b"x "), text_line("00", 5, b"y")];
    let edges_of = |(what, key, made): Pair, in_b: bool| {
        let made = made_text(made);
        let program = chosen_in_a(&made, &contents_of("120162"), &contents_of("120163"));
        let key = text_line("00", 1, key);
        let (number, shown, other) = if in_b { (3, &x, &y) } else { (5, &y, &x) };
        let with = |line: &str| match in_b {
            true => elements_with(&[&key, line, &y]),
            false => elements_with(&[&key, &x, line]),
        };
        let back = |line: &str| put_back(&with(shown), &program, &[line]);
        let accepted = |edit: String| edge(what, back(&edit), done(&with(&edit)));
        [
            edge(what, show(&with(shown), &program), done(&[shown])),
            edge(what, back(shown), done(&with(shown))),
            edge(what, back(other), refused(9, 0)),
            accepted(text_line("01", number, b"z")),
            accepted(text_line("01", number, b"x")),
            accepted(text_line("01", number, b"y ")),
            accepted(with_mark(shown, "02")),
        ]
    };
    let in_b: [Pair; 4] = [
        ("the first branch, for a padded text", b"hi ", b"hi"),
        ("the first branch, by a padded text", b"hi", b"hi   "),
        ("the first branch, for spaces alone", b"   ", b""),
        ("the first branch, without padding", b"hi", b"hi"),
    ];
    let in_c: [Pair; 4] = [
        ("the second branch, for byte 09 behind", b"hi\t", b"hi"),
        ("the second branch, for a space in front", b" hi", b"hi "),
        ("the second branch, for byte 00", b"\0", b" "),
        ("the second branch, for another text", b"lo ", b"hi "),
    ];
    let first = in_b.into_iter().flat_map(|pair| edges_of(pair, true));
    first.chain(in_c.into_iter().flat_map(|pair| edges_of(pair, false))).collect()
}

/// The first branch shows the compared text and another one, the second the compared one alone.
fn branches_with_the_compared_text() -> Vec<Edge> {
    let [key, other] = [text_line("00", 1, b"hi "), text_line("00", 3, b"lo")];
    let master = elements_with(&[&key, &other]);
    let both = [&["09", "01"], &contents_of("120162")[..]].concat();
    let program = chosen_in_a("03026869", &both, &["01"]);
    let back = |view: &[&str]| put_back(&master, &program, view);
    let saved = with_mark(&key, "01");
    let less = text_line("01", 1, b"hi");
    let edited = text_line("01", 3, b"lo ");
    let accepted = || done(&elements_with(&[&key, &edited]));
    vec![
        edge("shown", show(&master, &program), done(&[&key, &other])),
        edge("as byte for byte", back(&[&key]), refused(9, 1)),
        edge("the other one edited", back(&[&key, &edited]), accepted()),
        edge("the compared one saved, too", back(&[&saved, &edited]), accepted()),
        edge("a space less of the compared one", back(&[&less, &edited]), refused(11, 1)),
    ]
}

/// Elements whose text agrees are shown twice, the others once: the view is cut accordingly.
fn branches_of_other_lengths() -> Vec<Edge> {
    let element = |number: u16| format!("000200{number:04X}0177");
    let row =
        |number: u16, text: &[u8]| [element(number), inside(&text_line("00", number + 1, text))];
    let (first, second, third) = (row(0, b"hi"), row(2, b"hi  "), row(4, b"hi\0"));
    let master = [first.clone(), second.clone(), third.clone()].concat();
    let rows = ["0A", "0C00", "08", "08", "0500", "06"];
    let chosen = ["0B", "11", "0303686920", "09", "0500", "0500", "0500"];
    let program = [&rows[..], &chosen].concat();
    let fresh = [first.clone(), first, second.clone(), second, third].concat();
    let back = |place: usize, line: &str| {
        let mut view = fresh.clone();
        view[place] = line.to_string();
        put_back(&master, &program, &view)
    };
    let with = |number: u16, line: &str| {
        let mut edited = master.clone();
        edited[usize::from(number)] = line.to_string();
        done(&edited)
    };
    let gone = |number| with_mark(&element(number), "02");
    let less = inside(&text_line("01", 3, b"hi "));
    let changed = inside(&text_line("01", 5, b"hi"));
    vec![
        edge("shown", show(&master, &program), done(&fresh)),
        edge("the first deleted", back(0, &gone(0)), with(0, &gone(0))),
        edge("the padded one deleted", back(4, &gone(2)), with(2, &gone(2))),
        edge("its copy deleted", back(6, &gone(2)), with(2, &gone(2))),
        edge("the last deleted", back(8, &gone(4)), with(4, &gone(4))),
        edge("a space less in the padded one", back(5, &less), refused(11, 3)),
        edge("a space less in its copy", back(7, &less), refused(11, 3)),
        edge("another text in the last", back(9, &changed), refused(11, 5)),
    ]
}

fn full_masters() -> Vec<Edge> {
    let master: Vec<String> = (0..128).map(|number| text_line("00", number, SPACES)).collect();
    let empty = ["0A", "0B", "11", "0300", "01", "02"];
    let mut view = all_with_mark(&master, "01");
    view[127] = text_line("01", 127, SPACES_BUT_ONE);
    vec![
        edge("128 texts of 32 spaces", show(&master, &empty), done(&master)),
        edge("a space less in the last", put_back(&master, &empty, &view), refused(11, 127)),
    ]
}
