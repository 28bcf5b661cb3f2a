//! Deliberately wrong readings of document 01 and of requests #101, #103, #104 and #106, each of
//! which the committed cases tell apart: those of saved lines, of padded texts and of word orders
//! by an edge of theirs and again by a seeded case with many of them; those of sweeping, and what
//! it takes over, by sweeps alone.

mod common;

use second::cases::{order_edges, padded_edges, saved_edges};
use second::committed;
use second::demand3;
use second::node_line::Mark;
use second::rules::{
    Agreement, ClashPlace, Comparison, CountPlace, EditsGoBy, Goes, Locking, MarkedMaster, Merging,
    NumberLines, OldText, OrdersInFile, OrdersStay, Rules, SavedEffect, SavedMarks, Spelling,
    Stage,
};
use second::stream::{Call, Case};
use second::sweep_sentences;
use second::verdict::Verdict;

type Variant = (&'static str, fn(&mut Rules));

const WRONG_ROOMS_AND_LINES: [Variant; 12] = [
    ("an output of 9,855 bytes is enough", |rules| rules.rooms.output = 9_855),
    ("a work slice of 16,383 numbers is enough", |rules| rules.rooms.work = 16_383),
    ("line 96 of a program is read", |rules| rules.lines.program_lines = 97),
    ("line 128 of a master or view is read", |rules| rules.lines.node_lines = 129),
    ("a text may have 33 bytes", |rules| rules.lines.longest_text = 33),
    ("a tag may hold byte 20", |rules| rules.lines.first_tag_byte = 0x20),
    ("a tag may hold byte 7F", |rules| rules.lines.last_tag_byte = 0x7F),
    ("lower-case digits are digits", |rules| rules.lines.lower_case_digits = true),
    ("the last line may lack its 0A", |rules| rules.lines.last_line_may_lack_its_end = true),
    ("the number has its low byte first", |rules| rules.lines.number_low_byte_first = true),
    ("an element may be changed", |rules| rules.lines.element_may_be_changed = true),
    ("a master may be 8 deep", |rules| rules.bounds.master_depth = 8),
];

const WRONG_PROGRAMS_AND_RUNS: [Variant; 17] = [
    ("level 13 is allowed", |rules| rules.bounds.levels = 13),
    ("a fourth 0A is allowed", |rules| rules.bounds.eaches = 4),
    ("a fifth 0C is allowed", |rules| rules.bounds.binds = 5),
    ("entries may be left over", |rules| rules.bounds.entries_may_be_left_over = true),
    ("a missing entry is placed at the last line", |rules| {
        rules.bounds.missing_entry_is_behind_the_last = false;
    }),
    ("X of a test does not see the slots", |rules| rules.bounds.tests_see_the_slots = false),
    ("07 may yield 129 nodes", |rules| rules.bounds.value_nodes = 129),
    ("09 and 0A may join 129 nodes", |rules| rules.bounds.joined_nodes = 129),
    ("a value may be 10 deep", |rules| rules.bounds.value_depth = 10),
    ("the outer slot counts", |rules| rules.showing.innermost_slot_counts = false),
    ("0A looks at the size at its end", |rules| rules.showing.each_stops_early = false),
    ("0C runs X on the source", |rules| rules.showing.bind_runs_on_nothing = false),
    ("11 runs X on the source", |rules| rules.showing.equals_runs_on_nothing = false),
    ("11 checks its source behind X", |rules| {
        rules.showing.equals_checks_its_source_first = false;
    }),
    ("12 and 13 say no where they should stop", |rules| {
        rules.showing.tests_stop_for_their_source = false;
    }),
    ("parts and items run from the right", |rules| {
        rules.showing.parts_run_from_the_left = false;
    }),
    ("shown nodes lose their marks", |rules| rules.showing.marks_are_kept = false),
];

const WRONG_PUT_BACKS: [Variant; 19] = [
    ("the first copy wins", |rules| rules.putting_back.merging = Merging::FirstWins),
    ("the last copy wins", |rules| rules.putting_back.merging = Merging::LastWins),
    ("an untouched copy votes", |rules| rules.putting_back.merging = Merging::UntouchedVotes),
    ("equal edits clash", |rules| rules.putting_back.merging = Merging::EqualsClash),
    ("a compared text may be deleted", |rules| {
        rules.putting_back.merging = Merging::DeletedBeatsLocked;
    }),
    ("a clash yields to a later standing", |rules| {
        rules.putting_back.merging = Merging::ClashYields;
    }),
    ("11 locks its source only", |rules| rules.putting_back.locking = Locking::SourceOnly),
    ("11 locks its result only", |rules| rules.putting_back.locking = Locking::ResultOnly),
    ("11 locks only where it says yes", |rules| {
        rules.putting_back.locking = Locking::OnlyWhereEqual;
    }),
    ("11 locks nothing", |rules| rules.putting_back.locking = Locking::Nothing),
    ("edits go by place", |rules| rules.putting_back.edits_go_by = EditsGoBy::Place),
    ("edits go by text", |rules| rules.putting_back.edits_go_by = EditsGoBy::Text),
    ("a slot forgets its edits", |rules| rules.putting_back.slot_edits_are_kept = false),
    ("a slot keeps the last view only", |rules| {
        rules.putting_back.slot_edits_are_merged = false;
    }),
    ("09 forgets the edits of its second part", |rules| {
        rules.putting_back.beside_keeps_both = false;
    }),
    ("0B forgets the edits of its second branch", |rules| {
        rules.putting_back.both_branches_keep_edits = false;
    }),
    ("07 forgets the mark", |rules| rules.putting_back.within_takes_the_mark = false),
    ("deletion spreads to the contents", |rules| rules.putting_back.deletion_spreads = true),
    ("a deleted node loses its contents", |rules| {
        rules.putting_back.deleted_keep_their_contents = false;
    }),
];

const ANOTHER_PADDING_IS_SAVED: Variant =
    ("a line with another padding was saved without touching", |rules| {
        rules.saving.comparison = Comparison::ButForPadding;
    });

/// Reply 9 by the mark that counts is none of them: it compares the bytes of a saved line too, and
/// finds them equal.
const WRONG_SAVES: [Variant; 20] = [
    ("the old text is a change", |rules| rules.saving.marks = SavedMarks::None),
    ("a deleted line counts as untouched, and a saved one as changed", |rules| {
        rules.saving.marks = SavedMarks::Deleted;
    }),
    ("a deleted line counts as untouched, as a saved one does", |rules| {
        rules.saving.marks = SavedMarks::ChangedAndDeleted;
    }),
    ("a line marked 01 is compared with itself", |rules| {
        rules.saving.old_text = OldText::LineItself;
    }),
    ("the old text is that of any fresh line", |rules| {
        rules.saving.old_text = OldText::AnyFreshLine;
    }),
    ("the old text is that of the fresh line at the line's number", |rules| {
        rules.saving.old_text = OldText::FreshLineAtItsNumber;
    }),
    ("the old text is that of the master's line at the line's place", |rules| {
        rules.saving.old_text = OldText::MasterLineAtItsPlace;
    }),
    ("a text as long as the old one is the old one", |rules| {
        rules.saving.comparison = Comparison::Lengths;
    }),
    ANOTHER_PADDING_IS_SAVED,
    ("texts are compared up to the end of the shorter one", |rules| {
        rules.saving.comparison = Comparison::UpToTheShorter;
    }),
    ("a text ends at byte 00", |rules| rules.saving.comparison = Comparison::BeforeByte00),
    ("the first byte is not compared", |rules| {
        rules.saving.comparison = Comparison::BehindTheFirstByte;
    }),
    ("the last byte is not compared", |rules| {
        rules.saving.comparison = Comparison::BeforeTheLastByte;
    }),
    ("an empty text is never the old one", |rules| {
        rules.saving.comparison = Comparison::NeverOfEmpty;
    }),
    ("a text of 32 bytes is never the old one", |rules| {
        rules.saving.comparison = Comparison::NeverOf32Bytes;
    }),
    ("upper and lower case are not told apart", |rules| {
        rules.saving.comparison = Comparison::InEitherCase;
    }),
    ("a node with a saved line and no edit gets mark 01", |rules| {
        rules.saving.effect = SavedEffect::MarksTheNode;
    }),
    ("a compared text may not be saved", |rules| {
        rules.saving.effect = SavedEffect::ClashesWithLock;
    }),
    ("a saved line does not give way to a deletion", |rules| {
        rules.saving.effect = SavedEffect::ClashesWithDeletion;
    }),
    ("a saved line undoes the edit of its copies", |rules| {
        rules.saving.effect = SavedEffect::UndoesTheEdit;
    }),
];

const WRONG_AGREEMENTS: [Variant; 20] = [
    ("11 always says yes", |rules| rules.showing.equals_by = Agreement::Always),
    ("11 always says no", |rules| rules.showing.equals_by = Agreement::Never),
    ("11 compares byte for byte", |rules| rules.showing.equals_by = Agreement::ByteForByte),
    ("11 takes the padding off its source only", |rules| {
        rules.showing.equals_by = Agreement::ButForPaddingOfSource;
    }),
    ("11 takes the padding off the text of X only", |rules| {
        rules.showing.equals_by = Agreement::ButForPaddingOfResult;
    }),
    ("11 takes one space off", |rules| {
        rules.showing.equals_by = Agreement::ButForOneSpaceBehind;
    }),
    ("11 takes off the spaces in front too", |rules| {
        rules.showing.equals_by = Agreement::ButForSpacesAround;
    }),
    ("11 takes out all spaces", |rules| rules.showing.equals_by = Agreement::ButForSpaces),
    ("11 compares up to the first space", |rules| {
        rules.showing.equals_by = Agreement::BeforeTheFirstSpace;
    }),
    ("11 takes off bytes 09 too", |rules| rules.showing.equals_by = Agreement::ButForTabsToo),
    ("11 takes off bytes 0A and 0D too", |rules| {
        rules.showing.equals_by = Agreement::ButForLineEndsToo;
    }),
    ("11 takes off bytes 00 too", |rules| rules.showing.equals_by = Agreement::ButForByte00Too),
    ("11 takes off bytes A0 too", |rules| rules.showing.equals_by = Agreement::ButForByteA0Too),
    ("11 keeps the padding of a text of spaces alone", |rules| {
        rules.showing.equals_by = Agreement::SpacesAloneKeepAll;
    }),
    ("11 keeps one space of a text of spaces alone", |rules| {
        rules.showing.equals_by = Agreement::SpacesAloneKeepOne;
    }),
    ("11 compares up to the end of the shorter text", |rules| {
        rules.showing.equals_by = Agreement::UpToTheShorter;
    }),
    ("11 compares the lengths before the padding only", |rules| {
        rules.showing.equals_by = Agreement::Lengths;
    }),
    ("11 does not look at the first byte", |rules| {
        rules.showing.equals_by = Agreement::BehindTheFirstByte;
    }),
    ("11 does not look at the last byte before the padding", |rules| {
        rules.showing.equals_by = Agreement::BeforeTheLastByte;
    }),
    ("11 takes letters in either case as equal", |rules| {
        rules.showing.equals_by = Agreement::InEitherCase;
    }),
];

/// The padding overlooked where the bytes count. Tags are none of them: they have no byte 20, so
/// that test 12 says the same by either comparison.
const WRONG_USES_OF_PADDING: [Variant; 8] = [
    ("shown texts lose their padding", |rules| rules.showing.padding_is_kept = false),
    ("9 overlooks the padding", |rules| rules.judging.padding_is_compared = false),
    ANOTHER_PADDING_IS_SAVED,
    ("changes that differ in padding are equal", |rules| {
        rules.putting_back.merging = Merging::ButForPadding;
    }),
    ("the padding of a compared text is not locked", |rules| {
        rules.putting_back.merging = Merging::PaddingIsNotLocked;
    }),
    ("texts that agree but for their padding are not locked", |rules| {
        rules.putting_back.locking = Locking::UnlessPaddingAloneDiffers;
    }),
    ("a new text loses its padding when handed back", |rules| {
        rules.putting_back.new_texts_keep_their_padding = false;
    }),
    ("0B puts back the branch that whole texts choose", |rules| {
        rules.putting_back.branch_is_the_one_shown = false;
    }),
];

const WRONG_ORDERS: [Variant; 14] = [
    ("any bytes are an order", |rules| rules.lines.orders.spelling = Spelling::Any),
    ("letters of an order may be in either case", |rules| {
        rules.lines.orders.spelling = Spelling::InEitherCase;
    }),
    ("spaces behind an order are overlooked", |rules| {
        rules.lines.orders.spelling = Spelling::ButForPadding;
    }),
    ("spaces in front of an order are overlooked", |rules| {
        rules.lines.orders.spelling = Spelling::ButForSpacesInFront;
    }),
    ("bytes behind an order are overlooked", |rules| {
        rules.lines.orders.spelling = Spelling::BeginsWithTheWord;
    }),
    ("what an order begins with is an order", |rules| {
        rules.lines.orders.spelling = Spelling::BeginsTheWord;
    }),
    ("the first byte of an order is not looked at", |rules| {
        rules.lines.orders.spelling = Spelling::BehindTheFirstByte;
    }),
    ("the last byte of an order is not looked at", |rules| {
        rules.lines.orders.spelling = Spelling::BeforeTheLastByte;
    }),
    ("five bytes are an order", |rules| rules.lines.orders.spelling = Spelling::AsLong),
    ("hilo is an order", |rules| rules.lines.orders.words.push(b"hilo")),
    ("lohi is an order", |rules| rules.lines.orders.words.push(b"lohi")),
    ("no byte is an order", |rules| rules.lines.orders.words.push(b"")),
    ("hi-lo alone is an order", |rules| rules.lines.orders.words.truncate(1)),
    ("lo-hi alone is an order", |rules| rules.lines.orders.words = vec![b"lo-hi"]),
];

const WRONG_USES_OF_ORDERS: [Variant; 23] = [
    ("an order may not be changed", |rules| rules.lines.orders.may_be_changed = false),
    ("the words are asked under mark 01 only", |rules| {
        rules.lines.orders.asked_under = vec![Mark::Changed];
    }),
    ("the words are not asked where untouched", |rules| {
        rules.lines.orders.asked_under = vec![Mark::Changed, Mark::Deleted];
    }),
    ("the words are not asked where deleted", |rules| {
        rules.lines.orders.asked_under = vec![Mark::Untouched, Mark::Changed];
    }),
    ("the words are not asked where changed", |rules| {
        rules.lines.orders.asked_under = vec![Mark::Untouched, Mark::Deleted];
    }),
    ("other bytes are 5 in a master", |rules| {
        rules.lines.orders.in_masters = OrdersInFile::OfAnyBytes;
    }),
    ("other bytes are 9 in a view", |rules| {
        rules.lines.orders.in_views = OrdersInFile::OfAnyBytes;
    }),
    ("an order may stand in a view only", |rules| {
        rules.lines.orders.in_masters = OrdersInFile::None;
    }),
    ("an order may stand in a master only", |rules| {
        rules.lines.orders.in_views = OrdersInFile::None;
    }),
    ("an order may have contents", |rules| rules.bounds.order_may_have_contents = true),
    ("03 makes an order of the words", |rules| rules.showing.made_words_are_orders = true),
    ("11 stops if its source is an order", |rules| {
        rules.showing.order_is_a_source_of_11 = false;
    }),
    ("11 stops if the text of X is an order", |rules| {
        rules.showing.order_is_a_result_for_11 = false;
    }),
    ("13 says yes to an order", |rules| rules.showing.order_is_an_element_for_13 = true),
    ("06 shows nothing of an order", |rules| rules.showing.order_stops_06 = false),
    ("07 shows an order as it is", |rules| rules.showing.order_stops_07 = false),
    ("12 says no to an order", |rules| rules.showing.order_stops_12 = false),
    ("11 compares byte for byte", |rules| rules.showing.equals_by = Agreement::ByteForByte),
    ("11 locks its source only", |rules| rules.putting_back.locking = Locking::SourceOnly),
    ("11 locks its result only", |rules| rules.putting_back.locking = Locking::ResultOnly),
    ("a saved line is a change", |rules| rules.saving.marks = SavedMarks::None),
    ("9 takes an order and a text as one kind", |rules| {
        rules.judging.orders_differ_from_texts = false;
    }),
    ("9 does not look at the bytes of a deleted line", |rules| {
        rules.judging.deleted_bytes_are_compared = false;
    }),
];

const ORDERS_LOST_BY_PUT_BACKS: [Variant; 2] = [
    ("putting back makes a text of an order", |rules| {
        rules.putting_back.orders_stay = OrdersStay::None;
    }),
    ("putting back makes a text of a changed order", |rules| {
        rules.putting_back.orders_stay = OrdersStay::Unchanged;
    }),
];

const ORDERS_LOST_BY_SWEEPS: [Variant; 2] = [
    ("a sweep makes a text of an order", |rules| {
        rules.sweeping.orders_stay = OrdersStay::None;
    }),
    ("a sweep makes a text of a changed order", |rules| {
        rules.sweeping.orders_stay = OrdersStay::Unchanged;
    }),
];

const WRONG_JUDGING: [Variant; 16] = [
    ("4 is judged before 2", |rules| before(rules, Stage::MasterForm, Stage::ProgramForm)),
    ("4 is judged before 3", |rules| before(rules, Stage::MasterForm, Stage::ProgramTree)),
    ("2 is judged before 1", |rules| before(rules, Stage::ProgramForm, Stage::Rooms)),
    ("8 is judged before 6 and 7", |rules| before(rules, Stage::ViewForm, Stage::Run)),
    ("8 is judged before 5", |rules| before(rules, Stage::ViewForm, Stage::MasterBounds)),
    ("10 is judged before 9", |rules| before(rules, Stage::ProgramMarks, Stage::ViewComparison)),
    ("11 is judged before 10", |rules| before(rules, Stage::Clash, Stage::ProgramMarks)),
    ("10 is never given", |rules| {
        rules.judging.order.retain(|&stage| stage != Stage::ProgramMarks);
    }),
    ("10 looks at the mark that counts", |rules| {
        rules.judging.program_marks_are_read_as_written = false;
    }),
    ("a marked master is put back into", |rules| {
        rules.judging.marked_master = MarkedMaster::NeverRefused;
    }),
    ("a marked master is not shown", |rules| {
        rules.judging.marked_master = MarkedMaster::AlwaysRefused;
    }),
    ("the count is compared before the lines", |rules| rules.judging.count_before_lines = true),
    ("a difference in count stands at the longer one", |rules| {
        rules.judging.count_place = CountPlace::Longer;
    }),
    ("numbers are not compared", |rules| rules.judging.numbers_are_compared = false),
    ("the bytes of deleted lines are not compared", |rules| {
        rules.judging.deleted_bytes_are_compared = false;
    }),
    ("the greatest clash is named", |rules| rules.judging.clash_place = ClashPlace::Greatest),
];

const BOUNDS_ONE_TOO_TIGHT: [Variant; 14] = [
    ("an output of 9,856 bytes is too short", |rules| rules.rooms.output = 9_857),
    ("a work slice of 16,384 numbers is too short", |rules| rules.rooms.work = 16_385),
    ("line 95 of a program is refused", |rules| rules.lines.program_lines = 95),
    ("line 127 of a master or view is refused", |rules| rules.lines.node_lines = 127),
    ("a text may have 31 bytes at most", |rules| rules.lines.longest_text = 31),
    ("a tag may not hold byte 21", |rules| rules.lines.first_tag_byte = 0x22),
    ("a tag may not hold byte 7E", |rules| rules.lines.last_tag_byte = 0x7D),
    ("a master may be 6 deep at most", |rules| rules.bounds.master_depth = 6),
    ("level 12 is refused", |rules| rules.bounds.levels = 11),
    ("a third 0A is refused", |rules| rules.bounds.eaches = 2),
    ("a fourth 0C is refused", |rules| rules.bounds.binds = 3),
    ("a value may be 8 deep at most", |rules| rules.bounds.value_depth = 8),
    ("07 may yield 127 nodes at most", |rules| rules.bounds.value_nodes = 127),
    ("09 and 0A may join 127 nodes at most", |rules| rules.bounds.joined_nodes = 127),
];

const WRONG_SWEEPS: [Variant; 20] = [
    ("the contents of a deleted node stay", |rules| rules.sweeping.goes = Goes::DeletedAlone),
    ("the contents of a deleted node rise into its place", |rules| {
        rules.sweeping.goes = Goes::DeletedAndContentsRise;
    }),
    ("only leaves go with a deleted node", |rules| {
        rules.sweeping.goes = Goes::DeletedWithLeaves;
    }),
    ("only the top nodes of its contents go with a deleted node", |rules| {
        rules.sweeping.goes = Goes::DeletedWithItems;
    }),
    ("the siblings behind a deleted node go", |rules| {
        rules.sweeping.goes = Goes::DeletedWithSiblingsBehind;
    }),
    ("an inner deletion ends the outer one", |rules| {
        rules.sweeping.goes = Goes::UpToAnInnerDeleted;
    }),
    ("a changed node in a deleted one stays", |rules| rules.sweeping.goes = Goes::AllButChanged),
    ("a changed node goes", |rules| rules.sweeping.goes = Goes::ChangedToo),
    ("the marks are kept", |rules| rules.sweeping.marks_are_lost = false),
    ("the lines keep their old numbers", |rules| rules.sweeping.lines_are_renumbered = false),
    ("the new numbers begin at 1", |rules| rules.sweeping.first_number = 1),
    ("the second output has the old numbers", |rules| {
        rules.sweeping.number_lines = NumberLines::OldNumbers;
    }),
    ("the second output has the old number of each new node", |rules| {
        rules.sweeping.number_lines = NumberLines::OldNumberOfEachNew;
    }),
    ("the second output has 0 for a node that went", |rules| {
        rules.sweeping.number_lines = NumberLines::RemovedAreZero;
    }),
    ("the second output has the next new number for a node that went", |rules| {
        rules.sweeping.number_lines = NumberLines::RemovedGetTheNext;
    }),
    ("the second output has its low byte first", |rules| {
        rules.sweeping.number_lines = NumberLines::LowByteFirst;
    }),
    ("the second output has lines for kept nodes only", |rules| {
        rules.sweeping.number_lines = NumberLines::KeptOnly;
    }),
    ("the second output always has 128 lines", |rules| {
        rules.sweeping.number_lines = NumberLines::Always128;
    }),
    ("the length counts the second output too", |rules| {
        rules.sweeping.length_counts_number_lines = true;
    }),
    ("a sweep refuses marks", |rules| rules.judging.marked_master = MarkedMaster::AlwaysRefused),
];

const WRONG_REFUSALS_OF_SWEEPS: [Variant; 21] = [
    ("a second output of 639 bytes is enough", |rules| rules.rooms.numbers = 639),
    ("a second output of 640 bytes is too short", |rules| rules.rooms.numbers = 641),
    ("any second output is enough", |rules| rules.rooms.numbers = 0),
    ("an output of 9,855 bytes is enough", |rules| rules.rooms.output = 9_855),
    ("an output of 9,856 bytes is too short", |rules| rules.rooms.output = 9_857),
    ("4 is judged before 1", |rules| before(rules, Stage::MasterForm, Stage::Rooms)),
    ("5 is judged before 1", |rules| {
        before(rules, Stage::MasterForm, Stage::Rooms);
        before(rules, Stage::MasterBounds, Stage::Rooms);
    }),
    ("5 at an earlier line is judged before 4", |rules| {
        rules.judging.whole_file_for_one_number = false;
    }),
    ("line 128 is read", |rules| rules.lines.node_lines = 129),
    ("line 127 is refused", |rules| rules.lines.node_lines = 127),
    ("a text may have 33 bytes", |rules| rules.lines.longest_text = 33),
    ("a text may have 31 bytes at most", |rules| rules.lines.longest_text = 31),
    ("a tag may hold byte 20", |rules| rules.lines.first_tag_byte = 0x20),
    ("a tag may hold byte 7F", |rules| rules.lines.last_tag_byte = 0x7F),
    ("lower-case digits are digits", |rules| rules.lines.lower_case_digits = true),
    ("the last line may lack its 0A", |rules| rules.lines.last_line_may_lack_its_end = true),
    ("the number has its low byte first", |rules| rules.lines.number_low_byte_first = true),
    ("an element may be changed", |rules| rules.lines.element_may_be_changed = true),
    ("a master may be 8 deep", |rules| rules.bounds.master_depth = 8),
    ("a master may be 6 deep at most", |rules| rules.bounds.master_depth = 6),
    ("a tag may not hold byte 21", |rules| rules.lines.first_tag_byte = 0x22),
];

fn before(rules: &mut Rules, early: Stage, late: Stage) {
    let order = &mut rules.judging.order;
    order.retain(|&stage| stage != early);
    let place = order.iter().position(|&stage| stage == late).expect("a stage of the order");
    order.insert(place, early);
}

fn told_apart(variants: &[Variant]) {
    told_apart_by(committed::cases().into_iter().filter(|case| case.call != Call::Sweep), variants);
}

fn told_apart_by_sweeps(variants: &[Variant]) {
    told_apart_by(committed::sweeps().into_iter(), variants);
}

/// In how many of the cases each variant answers otherwise.
fn told_apart_by(cases: impl Iterator<Item = Case>, variants: &[Variant]) {
    let cases = common::rightly_answered(cases);
    for (name, change) in variants {
        let otherwise = common::answered_otherwise(&cases, change);
        println!("{otherwise:5} {name}");
        assert!(otherwise > 0, "no committed case tells apart: {name}");
    }
}

#[test]
fn wrong_rooms_and_lines_are_told_apart() {
    told_apart(&WRONG_ROOMS_AND_LINES);
}

#[test]
fn bounds_one_too_tight_are_told_apart() {
    told_apart(&BOUNDS_ONE_TOO_TIGHT);
}

#[test]
fn wrong_programs_and_runs_are_told_apart() {
    told_apart(&WRONG_PROGRAMS_AND_RUNS);
}

#[test]
fn wrong_ways_of_putting_back_are_told_apart() {
    told_apart(&WRONG_PUT_BACKS);
}

#[test]
fn wrong_readings_of_saved_lines_are_told_apart_by_the_edges() {
    told_apart_by(saved_edges::edges().into_iter().map(|edge| edge.case), &WRONG_SAVES);
}

#[test]
fn wrong_readings_of_saved_lines_are_told_apart_by_seeded_views() {
    told_apart_by(committed::seeded_saves().into_iter(), &WRONG_SAVES);
}

type Check = fn(&Case, &Rules) -> Verdict;

/// That what a check demands does not hold on the cases by any of the variants.
fn seen_by(check: Check, cases: &[Case], variants: &[Variant]) {
    let violated = |rules: &Rules| cases.iter().any(|case| check(case, rules) == Verdict::Violated);
    for (name, change) in variants {
        let mut rules = Rules::document();
        change(&mut rules);
        assert!(violated(&rules), "what is demanded holds though {name}");
    }
    assert!(!violated(&Rules::document()));
}

#[test]
fn wrong_readings_of_saved_lines_are_seen_by_brute_force() {
    seen_by(demand3::check, &committed::saves(), &WRONG_SAVES);
}

#[test]
fn wrong_readings_of_padded_texts_are_told_apart_by_the_edges() {
    let edges = || padded_edges::edges().into_iter().map(|edge| edge.case);
    told_apart_by(edges(), &WRONG_AGREEMENTS);
    told_apart_by(edges(), &WRONG_USES_OF_PADDING);
}

#[test]
fn wrong_readings_of_padded_texts_are_told_apart_by_seeded_cases() {
    told_apart_by(committed::seeded_pads().into_iter(), &WRONG_AGREEMENTS);
    told_apart_by(committed::seeded_pads().into_iter(), &WRONG_USES_OF_PADDING);
}

#[test]
fn wrong_uses_of_padding_are_seen_by_brute_force() {
    seen_by(demand3::check, &committed::pads(), &WRONG_USES_OF_PADDING);
}

#[test]
fn wrong_readings_of_orders_are_told_apart_by_the_edges() {
    wrong_orders_are_told_apart_by(order_edges::edges().into_iter().map(|edge| edge.case));
}

#[test]
fn wrong_readings_of_orders_are_told_apart_by_seeded_cases() {
    wrong_orders_are_told_apart_by(committed::seeded_orders().into_iter());
}

fn wrong_orders_are_told_apart_by(cases: impl Iterator<Item = Case> + Clone) {
    told_apart_by(cases.clone(), &WRONG_ORDERS);
    told_apart_by(cases.clone(), &WRONG_USES_OF_ORDERS);
    told_apart_by(cases.clone(), &ORDERS_LOST_BY_PUT_BACKS);
    told_apart_by(cases, &ORDERS_LOST_BY_SWEEPS);
}

#[test]
fn orders_that_are_lost_are_seen_by_brute_force() {
    seen_by(demand3::check, &committed::orders(), &ORDERS_LOST_BY_PUT_BACKS);
    seen_by(sweep_sentences::check, &committed::orders(), &ORDERS_LOST_BY_SWEEPS);
}

#[test]
fn wrong_judging_is_told_apart() {
    told_apart(&WRONG_JUDGING);
}

#[test]
fn wrong_sweeps_are_told_apart() {
    told_apart_by_sweeps(&WRONG_SWEEPS);
}

#[test]
fn wrong_refusals_of_sweeps_are_told_apart() {
    told_apart_by_sweeps(&WRONG_REFUSALS_OF_SWEEPS);
}
