//! Shows, put backs and sweeps at the edges of request #106, and the reply that it asks for to
//! each, written by hand. An order is a node of kind 03, whose bytes are one of two words.

use super::bench::{done, nested, put_back, refused, show};
use super::edge::{
    Edge, all_with_mark, both_compared, chosen_in_a, contents_of, each_with_each, edge,
    elements_with, in_each_order, inside, line_of_kind, made_text, order_line, text_line,
    with_mark,
};
use super::sweep_edges::{sweep, swept};
use crate::calls::Reply;
use crate::stream::Case;

/// A word and the other one.
const WORDS: [[&[u8]; 2]; 2] = [[b"hi-lo", b"lo-hi"], [b"lo-hi", b"hi-lo"]];
const MARKS: [&str; 3] = ["00", "01", "02"];

/// Node 0 as an order, and as a fitter may leave it.
const HI_LO: &str = "00030000000568692D6C6F";
const SAVED: &str = "00030100000568692D6C6F";
const TO_LO_HI: &str = "0003010000056C6F2D6869";
const DELETED: &str = "00030200000568692D6C6F";

/// Node 0 as the other order, as a text and as an element with the bytes of an order.
const LO_HI: &str = "0003000000056C6F2D6869";
const TEXT: &str = "00010000000568692D6C6F";
const TAG: &str = "00020000000568692D6C6F";

/// Node 1 as either order, and as a fitter may leave it.
const LO_HI_BEHIND: &str = "0003000001056C6F2D6869";
const HI_LO_BEHIND: &str = "00030000010568692D6C6F";
const TO_LO_HI_BEHIND: &str = "0003010001056C6F2D6869";
const TO_HI_LO_BEHIND: &str = "00030100010568692D6C6F";
const LO_HI_BEHIND_DELETED: &str = "0003020001056C6F2D6869";

/// An element, and an order in it.
const ELEMENT: &str = "00020000000164";
const ELEMENT_DELETED: &str = "00020200000164";
const HI_LO_INSIDE: &str = "01030000010568692D6C6F";
const HI_LO_INSIDE_DELETED: &str = "01030200010568692D6C6F";

const EMPTY: [&str; 0] = [];
const GONE: &str = "FFFF";
const WHOLE: [&str; 1] = ["01"];
const TWICE: [&str; 3] = ["09", "01", "01"];
const SLOT_TWICE: [&str; 4] = ["0C00", "09", "0500", "0500"];

/// Entries with the word of an order: texts, an element and a test.
const MADE_HI_LO: &str = "030568692D6C6F";
const MADE_HI_LO_PADDED: &str = "030668692D6C6F20";
const MADE_LO_HI: &str = "03056C6F2D6869";
const MADE_ELEMENT: &str = "040568692D6C6F";
const IS_TAGGED_HI_LO: &str = "120568692D6C6F";

/// Bytes that look like one of the two words, and are none.
const OTHER_BYTES: [(&str, &[u8]); 48] = [
    ("upper case", b"HI-LO"),
    ("upper case, the other word", b"LO-HI"),
    ("two upper case letters", b"Hi-Lo"),
    ("an upper case first byte", b"Hi-lo"),
    ("an upper case last byte", b"hi-lO"),
    ("no hyphen", b"hilo"),
    ("no hyphen, the other word", b"lohi"),
    ("byte 5F for the hyphen", b"hi_lo"),
    ("byte 20 for the hyphen", b"hi lo"),
    ("byte 2F for the hyphen", b"hi/lo"),
    ("byte 2C for the hyphen", b"hi,lo"),
    ("byte AD for the hyphen", b"hi\xADlo"),
    ("bytes E2 80 93 for the hyphen", b"hi\xE2\x80\x93lo"),
    ("two hyphens", b"hi--lo"),
    ("spaces around the hyphen", b"hi - lo"),
    ("a space behind", b"hi-lo "),
    ("a space behind the other word", b"lo-hi "),
    ("padded to 32 bytes", b"hi-lo                           "),
    ("a space in front", b" hi-lo"),
    ("a space in front of the other word", b" lo-hi"),
    ("byte 00 behind", b"hi-lo\0"),
    ("byte 00 behind the other word", b"lo-hi\0"),
    ("byte 0A behind", b"hi-lo\n"),
    ("byte 0D behind", b"hi-lo\r"),
    ("byte 00 in front", b"\0hi-lo"),
    ("no byte", b""),
    ("a byte alone", b"h"),
    ("the first half", b"hi"),
    ("the first half and the hyphen", b"lo-"),
    ("the hyphen alone", b"-"),
    ("a byte less", b"hi-l"),
    ("a byte less of the other word", b"lo-h"),
    ("no first byte", b"i-lo"),
    ("no first byte of the other word", b"o-hi"),
    ("a byte more", b"hi-low"),
    ("five spaces", b"     "),
    ("five bytes 00", b"\0\0\0\0\0"),
    ("the second half twice", b"lo-lo"),
    ("the first half twice", b"hi-hi"),
    ("a first byte one off", b"ii-lo"),
    ("a last byte one off", b"hi-ln"),
    ("a first byte one off in the other word", b"mo-hi"),
    ("a last byte one off in the other word", b"lo-hh"),
    ("a first byte of eight bits", b"\xE8i-lo"),
    ("the bytes from the last to the first", b"ol-ih"),
    ("both words", b"hi-lolo-hi"),
    ("three halves", b"hi-lo-hi"),
    ("32 bytes of the word", b"hi-lohi-lohi-lohi-lohi-lohi-lohi"),
];

pub fn edges() -> Vec<Edge> {
    let in_order = [
        words(),
        edits(),
        other_bytes(),
        other_bytes_of_other_kinds(),
        forms(),
        other_kinds(),
        elements_with_words_as_tags(),
        one_kind_for_another(),
        lines_of_the_program(),
        copies(),
        many_copies(),
        lines_under_orders(),
        texts_compared_with_orders(),
        compared_orders(),
        both_texts_of_a_test(),
        other_tests_and_stops(),
        branches(),
        through_operations(),
        two_faults_of_a_master(),
        before_and_behind_4(),
        too_many_orders(),
        two_faults_of_a_view(),
        marked_masters(),
        sweeps(),
        full_masters(),
    ];
    in_order.into_iter().flatten().collect()
}

/// Shown and swept under each mark, and put back.
fn words() -> Vec<Edge> {
    let edges_of = |[word, _]: [&[u8]; 2]| {
        let marked = |mark| order_line(mark, 0, word);
        let shown = |mark| edge("shown", show(&[marked(mark)], &WHOLE), done(&[marked(mark)]));
        let [fresh, changed, deleted] = MARKS.map(marked);
        let kept = || swept(&[&fresh], &["0000"]);
        MARKS
            .map(shown)
            .into_iter()
            .chain([
                edge("put back", put_back(&[&fresh], &WHOLE, &[&fresh]), done(&[&fresh])),
                edge("swept", sweep(&[&fresh]), kept()),
                edge("swept, changed", sweep(&[&changed]), kept()),
                edge("swept, deleted", sweep(&[&deleted]), swept(&EMPTY, &[GONE])),
            ])
            .collect::<Vec<Edge>>()
    };
    WORDS.into_iter().flat_map(edges_of).collect()
}

/// An order may become the other one, be saved and be deleted.
fn edits() -> Vec<Edge> {
    let edges_of = |[word, other]: [&[u8]; 2]| {
        let fresh = order_line("00", 0, word);
        let back = |mark, word| put_back(&[&fresh], &WHOLE, &[order_line(mark, 0, word)]);
        let marked = |mark, word| done(&[order_line(mark, 0, word)]);
        [
            edge("changed", back("01", other), marked("01", other)),
            edge("saved", back("01", word), marked("00", word)),
            edge("deleted", back("02", word), marked("02", word)),
            edge("the other word, not marked", back("00", other), refused(9, 0)),
            edge("the other word, deleted", back("02", other), refused(9, 0)),
        ]
    };
    let both = [HI_LO, LO_HI_BEHIND];
    let exchanged = [TO_LO_HI, TO_HI_LO_BEHIND];
    let first_gone = [DELETED, exchanged[1]];
    let last_gone = LO_HI_BEHIND_DELETED;
    let of_two = |what, view: &[&str; 2], reply| edge(what, put_back(&both, &WHOLE, view), reply);
    let of_both = [
        of_two("two exchanged", &exchanged, done(&exchanged)),
        of_two("one deleted, one changed", &first_gone, done(&first_gone)),
        of_two("one saved, one deleted", &[SAVED, last_gone], done(&[HI_LO, last_gone])),
        of_two("two exchanged, not marked", &[LO_HI, HI_LO_BEHIND], refused(9, 0)),
    ];
    WORDS.into_iter().flat_map(edges_of).chain(of_both).collect()
}

/// Refused under every mark, in masters and in views, behind an order.
fn other_bytes() -> Vec<Edge> {
    let master = [HI_LO, LO_HI_BEHIND];
    let edges_of = |(what, bytes): (_, &[u8]), mark| {
        let wrong = [HI_LO, &order_line(mark, 1, bytes)];
        [
            edge(what, show(&wrong, &WHOLE), refused(4, 1)),
            edge(what, put_back(&wrong, &WHOLE, &master), refused(4, 1)),
            edge(what, sweep(&wrong), refused(4, 1)),
            edge(what, put_back(&master, &WHOLE, &wrong), refused(8, 1)),
        ]
    };
    let under_each_mark = |pair| MARKS.into_iter().flat_map(move |mark| edges_of(pair, mark));
    OTHER_BYTES.into_iter().flat_map(under_each_mark).collect()
}

/// A text has them still, and may have the words; a tag has them still, if it may.
fn other_bytes_of_other_kinds() -> Vec<Edge> {
    let edges_of = |(what, bytes): (_, &[u8])| {
        let fresh = text_line("00", 0, bytes);
        let word = text_line("01", 0, b"hi-lo");
        let from_word = text_line("01", 0, bytes);
        [
            edge(what, put_back(&[&fresh], &WHOLE, &[&word]), done(&[&word])),
            edge(what, put_back(&[TEXT], &WHOLE, &[&from_word]), done(&[&from_word])),
        ]
    };
    let tags = ["00020000000548492D4C4F", "00020000010468696C6F", "00020000020568695F6C6F"];
    let of_tags = edge("tags", put_back(&tags, &WHOLE, &tags), done(&tags));
    OTHER_BYTES.into_iter().flat_map(edges_of).chain([of_tags]).collect()
}

/// What every line is asked, an order is asked too.
fn forms() -> Vec<Edge> {
    let lines = [
        ("mark 03", "00030300000568692D6C6F"),
        ("mark FF", "0003FF00000568692D6C6F"),
        ("a length too small", "00030000000468692D6C6F"),
        ("a length too large", "00030000000668692D6C6F"),
        ("length 00", "00030000000068692D6C6F"),
        ("no bytes behind the length", "000300000005"),
        ("no length", "0003000000"),
        ("digits in lower case", "00030000000568692d6c6f"),
        ("a digit less", "00030000000568692D6C6"),
    ];
    lines.into_iter().flat_map(|(what, line)| of_wrong_form(what, line)).collect()
}

fn of_wrong_form(what: &'static str, line: &str) -> [Edge; 3] {
    [
        edge(what, show(&[line], &WHOLE), refused(4, 0)),
        edge(what, sweep(&[line]), refused(4, 0)),
        edge(what, put_back(&[HI_LO], &WHOLE, &[line]), refused(8, 0)),
    ]
}

/// No other kind has come with it.
fn other_kinds() -> Vec<Edge> {
    let kinds = [
        ("kind 00", "00000000000568692D6C6F"),
        ("kind 04", "00040000000568692D6C6F"),
        ("kind 13", "00130000000568692D6C6F"),
        ("kind 30", "00300000000568692D6C6F"),
        ("kind 83", "00830000000568692D6C6F"),
        ("kind FF", "00FF0000000568692D6C6F"),
    ];
    kinds.into_iter().flat_map(|(what, line)| of_wrong_form(what, line)).collect()
}

/// A word may be a tag; the element with it is no order.
fn elements_with_words_as_tags() -> Vec<Edge> {
    let master = [TAG, HI_LO_INSIDE];
    let item = [HI_LO_BEHIND];
    let by_kind = ["0B", "13", "06", "02"];
    let by_tag = ["0B", IS_TAGGED_HI_LO, "06", "02"];
    let other_tag = ["0B", "12056C6F2D6869", "06", "02"];
    let changed = [&with_mark(TAG, "01"), master[1]];
    let item_deleted = [TAG, HI_LO_INSIDE_DELETED];
    vec![
        edge("13", show(&master, &by_kind), done(&item)),
        edge("12", show(&master, &by_tag), done(&item)),
        edge("12, the other word", show(&master, &other_tag), done(&EMPTY)),
        edge("changed in a master", show(&changed, &WHOLE), refused(4, 0)),
        edge("changed in a view", put_back(&master, &WHOLE, &changed), refused(8, 0)),
        edge("deleted inside", put_back(&master, &WHOLE, &item_deleted), done(&item_deleted)),
        edge("04", show(&EMPTY, &[MADE_ELEMENT]), done(&["000200FFFF0568692D6C6F"])),
    ]
}

/// The bytes are those of the fresh line, the kind is not; under mark 01 the bytes may differ too.
fn one_kind_for_another() -> Vec<Edge> {
    let pairs = [
        ("a text for an order", "03", "01"),
        ("an order for a text", "01", "03"),
        ("an order for an element", "02", "03"),
    ];
    let back = |fresh, kind, mark, bytes| {
        let master = [HI_LO, &line_of_kind(fresh, "00", 1, b"hi-lo")];
        put_back(&master, &WHOLE, &[HI_LO, &line_of_kind(kind, mark, 1, bytes)])
    };
    let edges_of = |(what, fresh, kind)| {
        let differs = |mark, bytes| edge(what, back(fresh, kind, mark, bytes), refused(9, 1));
        let marked = MARKS.map(|mark| differs(mark, b"hi-lo"));
        marked.into_iter().chain([differs("01", b"lo-hi")]).collect::<Vec<Edge>>()
    };
    let of_others = [
        edge("an element for an order", back("03", "02", "00", b"hi-lo"), refused(9, 1)),
        edge("an element for an order, deleted", back("03", "02", "02", b"hi-lo"), refused(9, 1)),
        edge("an element for an order, changed", back("03", "02", "01", b"hi-lo"), refused(8, 1)),
        edge("another text for an order", back("03", "01", "01", b"hilo"), refused(9, 1)),
        edge("no order for a text", back("01", "03", "01", b"hilo"), refused(8, 1)),
    ];
    pairs.into_iter().flat_map(edges_of).chain(of_others).collect()
}

/// The program makes texts and elements, and no order.
fn lines_of_the_program() -> Vec<Edge> {
    let [text, order] = ["01", "03"].map(|kind| line_of_kind(kind, "00", 0xFFFF, b"hi-lo"));
    let beside = ["09", "01", MADE_HI_LO];
    let made = |view: &str| put_back(&EMPTY, &[MADE_HI_LO], &[view]);
    let back = |view: &[&str]| put_back(&[HI_LO], &beside, view);
    let other_word = "000100FFFF056C6F2D6869";
    vec![
        edge("shown", show(&EMPTY, &[MADE_HI_LO]), done(&[&text])),
        edge("the other word", show(&EMPTY, &[MADE_LO_HI]), done(&[other_word])),
        edge("put back", made(&text), done(&EMPTY)),
        edge("as an order", made(&order), refused(9, 0)),
        edge("as an order, saved", made(&with_mark(&order, "01")), refused(9, 0)),
        edge("as an order, deleted", made(&with_mark(&order, "02")), refused(9, 0)),
        edge("as no order", made(&order_line("00", 0xFFFF, b"hilo")), refused(8, 0)),
        edge("saved", made(&with_mark(&text, "01")), refused(10, 0)),
        edge("beside an order", show(&[HI_LO], &beside), done(&[HI_LO, &text])),
        edge("beside a change", back(&[TO_LO_HI, &text]), done(&[TO_LO_HI])),
        edge("as an order, beside a change", back(&[TO_LO_HI, &order]), refused(9, 1)),
        edge("saved, beside a change", back(&[TO_LO_HI, &with_mark(&text, "01")]), refused(10, 1)),
        edge("its number on an order", back(&[&order, &text]), refused(9, 0)),
        edge("its number in a master", show(&[&order], &WHOLE), refused(5, 0)),
        edge("its number in a sweep", sweep(&[&order]), refused(5, 0)),
    ]
}

/// Two lines of one order, whichever comes first.
fn copies() -> Vec<Edge> {
    let copies = |what, lines: [&str; 2], reply: Reply| {
        let case = |program: &[&str], view: [&str; 2]| {
            edge(what, put_back(&[HI_LO], program, &view), reply.clone())
        };
        in_each_order(lines)
            .into_iter()
            .flat_map(|view| [case(&TWICE, view), case(&SLOT_TWICE, view)])
            .collect::<Vec<Edge>>()
    };
    let changed = || done(&[TO_LO_HI]);
    let deleted = || done(&[DELETED]);
    let in_order = [
        copies("untouched", [HI_LO, HI_LO], done(&[HI_LO])),
        copies("saved, untouched", [SAVED, HI_LO], done(&[HI_LO])),
        copies("saved twice", [SAVED, SAVED], done(&[HI_LO])),
        copies("changed, untouched", [TO_LO_HI, HI_LO], changed()),
        copies("changed, saved", [TO_LO_HI, SAVED], changed()),
        copies("changed alike", [TO_LO_HI, TO_LO_HI], changed()),
        copies("deleted, untouched", [DELETED, HI_LO], deleted()),
        copies("deleted, saved", [DELETED, SAVED], deleted()),
        copies("deleted twice", [DELETED, DELETED], deleted()),
        copies("changed, deleted", [TO_LO_HI, DELETED], refused(11, 0)),
    ];
    in_order.concat()
}

fn many_copies() -> Vec<Edge> {
    let three = ["09", "01", "09", "01", "01"];
    let back = |view: [&str; 3]| put_back(&[HI_LO], &three, &view);
    let no_order = "00030100000468696C6F";
    let text = "0001010000056C6F2D6869";
    let two = [HI_LO, LO_HI_BEHIND];
    let two_twice = [TO_LO_HI, TO_HI_LO_BEHIND, HI_LO, LO_HI_BEHIND_DELETED];
    vec![
        edge("saved, changed, deleted", back([SAVED, TO_LO_HI, DELETED]), refused(11, 0)),
        edge("saved, changed alike", back([TO_LO_HI, SAVED, TO_LO_HI]), done(&[TO_LO_HI])),
        edge("changed, no order", back([TO_LO_HI, HI_LO, no_order]), refused(8, 2)),
        edge("no order, a clash", back([no_order, DELETED, TO_LO_HI]), refused(8, 0)),
        edge("changed, a text", back([TO_LO_HI, text, HI_LO]), refused(9, 1)),
        edge("a clash behind a change", put_back(&two, &TWICE, &two_twice), refused(11, 1)),
    ]
}

/// Nothing stands under an order, whatever its mark.
fn lines_under_orders() -> Vec<Edge> {
    let kinds = [
        ("a text under an order", "01010000010178"),
        ("an element under an order", "01020000010177"),
        ("an order under an order", HI_LO_INSIDE),
    ];
    let edges_of = |(what, line): (_, &str)| {
        let master = [HI_LO, line];
        [
            edge(what, show(&master, &WHOLE), refused(5, 1)),
            edge(what, show(&[TO_LO_HI, line], &WHOLE), refused(5, 1)),
            edge(what, put_back(&master, &WHOLE, &master), refused(5, 1)),
            edge(what, sweep(&master), refused(5, 1)),
            edge(what, sweep(&[DELETED, line]), refused(5, 1)),
        ]
    };
    let flat = [HI_LO, LO_HI_BEHIND];
    let under = inside(LO_HI_BEHIND);
    let deep = [ELEMENT, HI_LO_INSIDE, "02010000020178"];
    let behind = [deep[0], deep[1], "01010000020178", "0003000003056C6F2D6869"];
    let deepest = [nested(7), vec!["07030000070568692D6C6F".to_string()]].concat();
    let too_deep = [nested(8), vec!["08030000080568692D6C6F".to_string()]].concat();
    let of_others = [
        edge("one deeper in a view", put_back(&flat, &WHOLE, &[HI_LO, &under]), refused(9, 1)),
        edge("a line more", put_back(&flat[..1], &WHOLE, &[HI_LO, &under]), refused(9, 1)),
        edge("under an order in an element", show(&deep, &WHOLE), refused(5, 2)),
        edge("behind an order in an element", show(&behind, &WHOLE), done(&behind)),
        edge("an order in depth 7", show(&deepest, &WHOLE), done(&deepest)),
        edge("an order in depth 8", show(&too_deep, &WHOLE), refused(5, 8)),
        edge("a first line in depth 1", show(&[inside(HI_LO)], &WHOLE), refused(5, 0)),
        edge("a number of another line", show(&[HI_LO, HI_LO], &WHOLE), refused(5, 1)),
    ];
    kinds.into_iter().flat_map(edges_of).chain(of_others).collect()
}

/// Texts that the order hi-lo is compared with, and whether they agree.
const COMPARED: [(&str, &[u8], bool); 14] = [
    ("its word", b"hi-lo", true),
    ("its word and a space", b"hi-lo ", true),
    ("its word and several spaces", b"hi-lo    ", true),
    ("its word padded to 32 bytes", b"hi-lo                           ", true),
    ("the other word", b"lo-hi", false),
    ("the other word and a space", b"lo-hi ", false),
    ("upper case", b"HI-LO", false),
    ("no hyphen", b"hilo", false),
    ("a space in front", b" hi-lo", false),
    ("byte 00 behind", b"hi-lo\0", false),
    ("a byte less", b"hi-l", false),
    ("a byte more", b"hi-lo-", false),
    ("no byte", b"", false),
    ("five spaces", b"     ", false),
];

/// Test 11 takes an order as its source and as the result of X, and compares it with any text.
fn texts_compared_with_orders() -> Vec<Edge> {
    let shown_if = |agree: bool| if agree { done(&[HI_LO]) } else { done(&EMPTY) };
    let edges_of = |(what, text, agree): (_, &[u8], bool)| {
        let made = made_text(text);
        let as_source = ["0B", "11", &made, "01", "02"];
        let as_result = ["0C00", "08", &made, "0B", "11", "0500", "0500", "02"];
        let both = [HI_LO, &text_line("00", 1, text)];
        let shown = if agree { both.repeat(2) } else { both.to_vec() };
        [
            edge(what, show(&[HI_LO], &as_source), shown_if(agree)),
            edge(what, show(&[HI_LO], &as_result), shown_if(agree)),
            edge(what, show(&both, &each_with_each()), done(&shown)),
        ]
    };
    let alike = [HI_LO, HI_LO_BEHIND];
    let different = [HI_LO, LO_HI_BEHIND];
    let marked = [SAVED, "00030200010568692D6C6F"];
    let of_orders = [
        edge("two orders alike", show(&alike, &each_with_each()), done(&alike.repeat(2))),
        edge("two orders", show(&different, &each_with_each()), done(&different)),
        edge("two marked orders", show(&marked, &each_with_each()), done(&marked.repeat(2))),
    ];
    COMPARED.into_iter().flat_map(edges_of).chain(of_orders).collect()
}

/// A compared order is locked, whatever the test said.
fn compared_orders() -> Vec<Edge> {
    let edges_of = |(what, text, _): (_, &[u8], bool)| {
        let made = made_text(text);
        let as_source = ["0B", "11", &made, "01", "01"];
        let as_result = ["0C00", "08", &made, "0B", "11", "0500", "0500", "0500"];
        let edges_with = |program: &[&str]| {
            let back = |line: &str| put_back(&[HI_LO], program, &[line]);
            [
                edge(what, back(HI_LO), done(&[HI_LO])),
                edge(what, back(SAVED), done(&[HI_LO])),
                edge(what, back(TO_LO_HI), refused(11, 0)),
                edge(what, back(DELETED), refused(11, 0)),
            ]
        };
        [edges_with(&as_source), edges_with(&as_result)].concat()
    };
    COMPARED.into_iter().flat_map(edges_of).collect()
}

/// A kind, and the bytes of a line of it.
type KindAndBytes = (&'static str, &'static [u8]);

/// Node 3 is the source of test 11 and node 1 the result of its X; both are shown.
fn both_texts_of_a_test() -> Vec<Edge> {
    let pairs: [(&str, KindAndBytes, KindAndBytes); 5] = [
        ("two orders alike", ("03", b"hi-lo"), ("03", b"hi-lo")),
        ("two orders", ("03", b"hi-lo"), ("03", b"lo-hi")),
        ("an order and a padded text", ("03", b"lo-hi"), ("01", b"lo-hi ")),
        ("a padded text and an order", ("01", b"lo-hi  "), ("03", b"lo-hi")),
        ("another text and an order", ("01", b"hilo"), ("03", b"hi-lo")),
    ];
    let edges_of = |(what, source, result): (_, KindAndBytes, KindAndBytes)| {
        let fresh =
            [line_of_kind(source.0, "00", 3, source.1), line_of_kind(result.0, "00", 1, result.1)];
        let [saved, gone] = ["01", "02"].map(|mark| all_with_mark(&fresh, mark));
        let changed =
            [line_of_kind(source.0, "01", 3, b"lo-hi"), line_of_kind(result.0, "01", 1, b"hi-lo")];
        let master = elements_with(&[&fresh[1], &fresh[0]]);
        let back = |view: [&str; 2]| put_back(&master, &both_compared(), &view);
        let mut edges = vec![
            edge(what, show(&master, &both_compared()), done(&fresh)),
            edge(what, back([&saved[0], &saved[1]]), done(&master)),
            edge(what, back([&gone[0], &fresh[1]]), refused(11, 3)),
            edge(what, back([&saved[0], &gone[1]]), refused(11, 1)),
            edge(what, back([&gone[0], &gone[1]]), refused(11, 1)),
        ];
        // A word that is the old one would be saved.
        if changed[0] != saved[0] {
            edges.push(edge(what, back([&changed[0], &saved[1]]), refused(11, 3)));
        }
        if changed[1] != saved[1] {
            edges.push(edge(what, back([&fresh[0], &changed[1]]), refused(11, 1)));
        }
        edges
    };
    pairs.into_iter().flat_map(edges_of).collect()
}

/// 06, 07 and 12 stop at an order as at a text, and 13 says no.
fn other_tests_and_stops() -> Vec<Edge> {
    let by_kind = ["0B", "13", "06", "01"];
    let each_by_kind = ["0A", "0B", "13", "06", "01"];
    let mixed = [TAG, "01010000010178", "0003000002056C6F2D6869", "00010000030178"];
    let items = ["00010000010178", mixed[2], mixed[3]];
    let two = [HI_LO, LO_HI_BEHIND];
    let is_hi_lo = ["0B", "11", MADE_HI_LO, "01", "02"];
    let with_element = ["0B", "11", MADE_ELEMENT, "01", "02"];
    let with_contents = ["0C00", "08", "0300", "0B", "11", "08", "0500", "06", "01", "02"];
    let tagged = ["0B", IS_TAGGED_HI_LO, "01", "01"];
    let inner_each = ["0A", "0A", "06"];
    vec![
        edge("13", show(&[HI_LO], &by_kind), done(&[HI_LO])),
        edge("13 of each", show(&mixed, &each_by_kind), done(&items)),
        edge("13 of a deleted one", show(&[DELETED], &by_kind), done(&[DELETED])),
        edge("13, changed", put_back(&[HI_LO], &by_kind, &[TO_LO_HI]), done(&[TO_LO_HI])),
        edge("13, deleted", put_back(&[HI_LO], &by_kind, &[DELETED]), done(&[DELETED])),
        edge("13 of two", show(&two, &by_kind), refused(6, 1)),
        edge("12", show(&[HI_LO], &tagged), refused(6, 1)),
        edge("12 of each", show(&two, &["0A", "0B", "120177", "01", "02"]), refused(6, 2)),
        edge("12, put back", put_back(&[HI_LO], &tagged, &[HI_LO]), refused(6, 1)),
        edge("06", show(&[HI_LO], &["06"]), refused(6, 0)),
        edge("06, put back", put_back(&[HI_LO], &["06"], &EMPTY), refused(6, 0)),
        edge("06 of each", show(&two, &inner_each), refused(6, 2)),
        edge("07", show(&[HI_LO], &["07", "01"]), refused(6, 0)),
        edge("07 with nothing", show(&[HI_LO], &["07", "02"]), refused(6, 0)),
        edge("07, put back", put_back(&[HI_LO], &["07", "01"], &[TO_LO_HI]), refused(6, 0)),
        edge("07 behind 13", show(&[HI_LO], &["0B", "13", "01", "07", "01"]), refused(6, 3)),
        edge("11 of two", show(&two, &is_hi_lo), refused(6, 1)),
        edge("11 with an element", show(&[HI_LO], &with_element), refused(6, 1)),
        edge("11 with the contents of an order", show(&[HI_LO], &with_contents), refused(6, 7)),
    ]
}

/// The order in element a chooses between the orders in b and c.
fn branches() -> Vec<Edge> {
    let [key, in_b, in_c] =
        [(1, b"hi-lo"), (3, b"hi-lo"), (5, b"lo-hi")].map(|(at, word)| order_line("00", at, word));
    let master = elements_with(&[&key, &in_b, &in_c]);
    let program = |made| chosen_in_a(made, &contents_of("120162"), &contents_of("120163"));
    let [yes, no] = [MADE_HI_LO_PADDED, MADE_LO_HI].map(program);
    let to_lo_hi = order_line("01", 3, b"lo-hi");
    let to_hi_lo = order_line("01", 5, b"hi-lo");
    let b_changed = elements_with(&[&key, &to_lo_hi, &in_c]);
    let c_changed = elements_with(&[&key, &in_b, &to_hi_lo]);
    let saved = with_mark(&in_b, "01");
    let back = |program: &[&str], line: &str| put_back(&master, program, &[line]);
    vec![
        edge("yes", show(&master, &yes), done(&[&in_b])),
        edge("no", show(&master, &no), done(&[&in_c])),
        edge("yes, changed", back(&yes, &to_lo_hi), done(&b_changed)),
        edge("no, changed", back(&no, &to_hi_lo), done(&c_changed)),
        edge("yes, saved", back(&yes, &saved), done(&master)),
        edge("the order of the other branch", back(&no, &in_b), refused(9, 0)),
        edge("yes, no order", back(&yes, &order_line("01", 3, b"HI-LO")), refused(8, 0)),
    ]
}

fn through_operations() -> Vec<Edge> {
    let master = [ELEMENT, HI_LO_INSIDE, "0103000002056C6F2D6869"];
    let [hi_lo, lo_hi] = [HI_LO_BEHIND, "0003000002056C6F2D6869"];
    let changed = "0103010001056C6F2D6869";
    let top_changed = TO_LO_HI_BEHIND;
    let deleted = with_mark(master[2], "02");
    let with_first = [master[0], changed, master[2]];
    let with_both = [master[0], changed, &deleted];
    let in_deleted = [ELEMENT_DELETED, changed, master[2]];
    let top_deleted = with_mark(lo_hi, "02");
    let each = ["08", "06", "0A", "01"];
    let each_twice = ["08", "06", "0A", "09", "01", "01"];
    let in_made = ["0C00", "08", "040161", "07", "0500"];
    let around = ["000200FFFF0161", "01020000000164"];
    let made = [around[0], around[1], "02030000010568692D6C6F", "0203000002056C6F2D6869"];
    let made_changed = [around[0], around[1], "0203010001056C6F2D6869", made[3]];
    let back = |program: &[&str], view: &[&str]| put_back(&master, program, view);
    vec![
        edge("06", back(&["06"], &[top_changed, &top_deleted]), done(&with_both)),
        edge("07", back(&["07", "01"], &with_both), done(&with_both)),
        edge("07, deleted", back(&["07", "01"], &in_deleted), done(&in_deleted)),
        edge("0A", back(&each, &[top_changed, lo_hi]), done(&with_first)),
        edge(
            "0A around 09",
            back(&each_twice, &[top_changed, hi_lo, lo_hi, &top_deleted]),
            done(&with_both),
        ),
        edge(
            "09",
            back(&["09", "06", "06"], &[hi_lo, lo_hi, top_changed, &top_deleted]),
            done(&with_both),
        ),
        edge("0C", back(&["0C00", "0500"], &with_both), done(&with_both)),
        edge("in an element of the program", show(&master, &in_made), done(&made)),
        edge("there, changed", put_back(&master, &in_made, &made_changed), done(&with_first)),
    ]
}

/// The words are judged with the form: for 4 before 5, at the first line.
fn two_faults_of_a_master() -> Vec<Edge> {
    let wrong = |number| order_line("00", number, b"hilo");
    let good = |number| order_line("00", number, b"hi-lo");
    let kind_04 = line_of_kind("04", "00", 1, b"hi-lo");
    let masters = [
        ("two wrong orders", [wrong(0), wrong(1)], 0),
        ("a wrong order, then kind 04", [wrong(0), kind_04.clone()], 0),
        ("kind 04, then a wrong order", [kind_04, wrong(1)], 0),
        ("a wrong number, then a wrong order", [good(7), wrong(1)], 1),
        ("a wrong order, then a wrong number", [wrong(0), good(7)], 0),
        ("a wrong order with a wrong number", [good(0), wrong(7)], 1),
        ("a wrong depth, then a wrong order", [inside(&good(0)), wrong(1)], 1),
        ("a wrong order under an order", [good(0), inside(&wrong(1))], 1),
        ("a mark, then a wrong order", [with_mark(&good(0), "01"), wrong(1)], 1),
        ("a wrong order with number FFFF", [good(0), wrong(0xFFFF)], 1),
    ];
    let edges_of = |(what, master, place): (_, [String; 2], _)| {
        [
            edge(what, show(&master, &WHOLE), refused(4, place)),
            edge(what, put_back(&master, &WHOLE, &master), refused(4, place)),
            edge(what, sweep(&master), refused(4, place)),
        ]
    };
    masters.into_iter().flat_map(edges_of).collect()
}

/// A wrong order beside the faults of other numbers.
fn before_and_behind_4() -> Vec<Edge> {
    let wrong = [order_line("00", 0, b"hilo")];
    let with_rooms =
        |output_room, second_room, case: Case| Case { output_room, second_room, ..case };
    let shown = show(&wrong, &WHOLE);
    vec![
        edge("1 before", with_rooms(9_855, 16_384, shown), refused(1, 0)),
        edge("1 before, in a sweep", with_rooms(9_856, 639, sweep(&wrong)), refused(1, 0)),
        edge("2 before", show(&wrong, &["0D"]), refused(2, 0)),
        edge("3 before", show(&wrong, &["08", "01"]), refused(3, 2)),
        edge("6 behind", show(&wrong, &["06"]), refused(4, 0)),
    ]
}

/// A line more than there may be.
fn too_many_orders() -> Vec<Edge> {
    let full = orders(128, "00", b"hi-lo");
    let one_more = orders(129, "00", b"hi-lo");
    let mut last_wrong = one_more.clone();
    last_wrong[127] = order_line("00", 127, b"hilo");
    vec![
        edge("129 orders", show(&one_more, &WHOLE), refused(4, 128)),
        edge("129 orders, one wrong", show(&last_wrong, &WHOLE), refused(4, 127)),
        edge("129 orders in a sweep", sweep(&one_more), refused(4, 128)),
        edge("129 orders in a view", put_back(&full, &WHOLE, &one_more), refused(8, 128)),
    ]
}

/// So many nodes at depth 0.
fn orders(count: u16, mark: &str, word: &[u8]) -> Vec<String> {
    (0..count).map(|number| order_line(mark, number, word)).collect()
}

/// For 8 before 9, 10 and 11, at the first line; and behind 4, 5 and 6.
fn two_faults_of_a_view() -> Vec<Edge> {
    let wrong = |number| order_line("01", number, b"hilo");
    let both = [HI_LO, LO_HI_BEHIND];
    let back = |view: [&str; 2]| put_back(&both, &WHOLE, &view);
    let text = text_line("00", 0, b"hi-lo");
    let beside = ["09", MADE_HI_LO, "01"];
    let made_deleted = "000102FFFF0568692D6C6F";
    let is_hi_lo = ["0B", "11", MADE_HI_LO, "01", "02"];
    let marked = with_mark(HI_LO, "02");
    vec![
        edge("two wrong orders", back([&wrong(0), &wrong(1)]), refused(8, 0)),
        edge("another kind, then a wrong order", back([&text, &wrong(1)]), refused(8, 1)),
        edge("a wrong order, then another kind", back([&wrong(0), &text]), refused(8, 0)),
        edge("another number, then a wrong order", back([LO_HI_BEHIND, &wrong(1)]), refused(8, 1)),
        edge("a wrong order with another number", back([HI_LO, &wrong(7)]), refused(8, 1)),
        edge("a wrong order in another depth", back([HI_LO, &inside(&wrong(1))]), refused(8, 1)),
        edge("a wrong order for a text", put_back(&[TEXT], &WHOLE, &[wrong(0)]), refused(8, 0)),
        edge("a wrong order for an element", put_back(&[TAG], &WHOLE, &[wrong(0)]), refused(8, 0)),
        edge("a line more", put_back(&[HI_LO], &WHOLE, &[HI_LO, &wrong(1)]), refused(8, 1)),
        edge("a line less", put_back(&both, &WHOLE, &[wrong(0)]), refused(8, 0)),
        edge("10", put_back(&[HI_LO], &beside, &[made_deleted, &wrong(0)]), refused(8, 1)),
        edge("11 at a compared one", put_back(&[HI_LO], &is_hi_lo, &[wrong(0)]), refused(8, 0)),
        edge("a copy of a clash", put_back(&[HI_LO], &TWICE, &[DELETED, &wrong(0)]), refused(8, 1)),
        edge("6", put_back(&[HI_LO], &["06"], &[wrong(0)]), refused(6, 0)),
        edge("5", put_back(&[marked], &WHOLE, &[wrong(0)]), refused(5, 0)),
        edge("4", put_back(&[wrong(0)], &WHOLE, &[wrong(0)]), refused(4, 0)),
    ]
}

/// Marks may stand where a master is shown or swept, and not where it is put back into.
fn marked_masters() -> Vec<Edge> {
    let behind = |mark| [HI_LO.to_string(), with_mark(LO_HI_BEHIND, mark)];
    let [changed, deleted] = ["01", "02"].map(behind);
    let both = [DELETED, TO_HI_LO_BEHIND];
    vec![
        edge("changed", put_back(&changed, &WHOLE, &changed), refused(5, 1)),
        edge("deleted", put_back(&deleted, &WHOLE, &deleted), refused(5, 1)),
        edge("shown twice", show(&both, &TWICE), done(&both.repeat(2))),
        edge("compared", show(&both, &["0A", "0B", "11", MADE_HI_LO, "01", "02"]), done(&both)),
    ]
}

/// An order goes and stays as a text does, and stays an order.
fn sweeps() -> Vec<Edge> {
    let each_mark = [HI_LO, TO_LO_HI_BEHIND, "00030200020568692D6C6F", "00010000030178"];
    let kept = [HI_LO, LO_HI_BEHIND, "00010000020178"];
    let root_deleted = [ELEMENT_DELETED, HI_LO_INSIDE, "00030000020568692D6C6F"];
    let emptied = [ELEMENT, HI_LO_INSIDE_DELETED, "01030200020568692D6C6F"];
    let words = ["00010100000568692D6C6F", TO_LO_HI_BEHIND, "00010000020468696C6F"];
    let words_kept = [TEXT, LO_HI_BEHIND, words[2]];
    vec![
        edge("each mark", sweep(&each_mark), swept(&kept, &["0000", "0001", GONE, "0002"])),
        swept_in_elements(),
        edge(
            "behind a deleted element",
            sweep(&root_deleted),
            swept(&[HI_LO], &[GONE, GONE, "0000"]),
        ),
        edge("all in an element", sweep(&emptied), swept(&emptied[..1], &["0000", GONE, GONE])),
        edge(
            "behind a deleted order",
            sweep(&[DELETED, LO_HI_BEHIND]),
            swept(&[LO_HI], &[GONE, "0000"]),
        ),
        edge(
            "beside texts with words",
            sweep(&words),
            swept(&words_kept, &["0000", "0001", "0002"]),
        ),
    ]
}

fn swept_in_elements() -> Edge {
    let master = [
        ELEMENT,
        HI_LO_INSIDE_DELETED,
        "0103010002056C6F2D6869",
        "01020200030177",
        "02030000040568692D6C6F",
        "02030100050568692D6C6F",
        "0203020006056C6F2D6869",
        "01030000070568692D6C6F",
        "00030100080568692D6C6F",
    ];
    let kept =
        [ELEMENT, "0103000001056C6F2D6869", "01030000020568692D6C6F", "00030000030568692D6C6F"];
    let numbers = ["0000", GONE, "0001", GONE, GONE, GONE, GONE, "0002", "0003"];
    edge("in elements", sweep(&master), swept(&kept, &numbers))
}

fn full_masters() -> Vec<Edge> {
    let full = orders(128, "00", b"hi-lo");
    let changed = orders(128, "01", b"lo-hi");
    let [saved, deleted] = ["01", "02"].map(|mark| all_with_mark(&full, mark));
    let mut last_wrong = saved.clone();
    last_wrong[127] = order_line("01", 127, b"hi-lO");
    let mut last_changed = saved.clone();
    last_changed[127] = changed[127].clone();
    let mut last_alone = full.clone();
    last_alone[127] = changed[127].clone();
    let same: Vec<String> = (0..128).map(|number| format!("{number:04X}")).collect();
    let half = orders(64, "00", b"lo-hi");
    let all_equal = ["0A", "0B", "11", MADE_HI_LO_PADDED, "01", "02"];
    let back = |view: &[String]| put_back(&full, &WHOLE, view);
    vec![
        edge("128 shown", show(&full, &WHOLE), done(&full)),
        edge("128 changed", back(&changed), done(&changed)),
        edge("128 saved", back(&saved), done(&full)),
        edge("128 deleted", back(&deleted), done(&deleted)),
        edge("the last of 128 changed", back(&last_changed), done(&last_alone)),
        edge("the last of 128 wrong", back(&last_wrong), refused(8, 127)),
        edge("128 compared", put_back(&full, &all_equal, &last_changed), refused(11, 127)),
        edge("64 twice", show(&half, &TWICE), done(&[half.clone(), half].concat())),
        edge("65 twice", show(&orders(65, "00", b"lo-hi"), &TWICE), refused(7, 0)),
        edge("128 swept", sweep(&full), swept(&full, &same)),
        edge("128 swept, changed", sweep(&changed), swept(&orders(128, "00", b"lo-hi"), &same)),
        edge("128 swept, deleted", sweep(&deleted), swept(&EMPTY, &[GONE; 128])),
        edge("128 swept, the last wrong", sweep(&last_wrong), refused(4, 127)),
    ]
}
