//! What document 01 and requests #101, #103, #104 and #106 fix, as values. `Rules::document()` is
//! what they say; the tests change one value at a time to see that the committed cases tell each
//! wrong reading apart.

use crate::node_line::Mark;

#[derive(Clone, Debug)]
pub struct Rules {
    pub rooms: Rooms,
    pub lines: Lines,
    pub bounds: Bounds,
    pub showing: Showing,
    pub putting_back: PuttingBack,
    pub saving: Saving,
    pub sweeping: Sweeping,
    pub judging: Judging,
}

/// The least rooms a caller has to bring.
#[derive(Clone, Debug)]
pub struct Rooms {
    pub output: u32,
    pub work: u32,
    pub numbers: u32,
}

/// The form of files and lines.
#[derive(Clone, Debug)]
pub struct Lines {
    pub program_lines: usize,
    pub node_lines: usize,
    pub longest_text: usize,
    pub first_tag_byte: u8,
    pub last_tag_byte: u8,
    pub lower_case_digits: bool,
    pub last_line_may_lack_its_end: bool,
    pub number_low_byte_first: bool,
    pub element_may_be_changed: bool,
    pub orders: Orders,
}

/// The form of lines of kind 03.
#[derive(Clone, Debug)]
pub struct Orders {
    pub words: Vec<&'static [u8]>,
    pub spelling: Spelling,
    pub asked_under: Vec<Mark>,
    pub may_be_changed: bool,
    pub in_masters: OrdersInFile,
    pub in_views: OrdersInFile,
}

/// Which orders the form of a file lets through.
#[derive(Clone, Copy, Debug, PartialEq, Eq)]
pub enum OrdersInFile {
    OfTheWords,
    /// The bounds of a master and the comparison of a view ask for the words.
    OfAnyBytes,
    None,
}

/// When bytes are a word order.
#[derive(Clone, Copy, Debug, PartialEq, Eq)]
pub enum Spelling {
    ByteForByte,
    Any,
    InEitherCase,
    ButForPadding,
    ButForSpacesInFront,
    BeginsWithTheWord,
    BeginsTheWord,
    BehindTheFirstByte,
    BeforeTheLastByte,
    AsLong,
}

/// The bounds of masters, programs and values.
#[derive(Clone, Debug)]
pub struct Bounds {
    pub master_depth: u8,
    pub levels: usize,
    pub eaches: usize,
    pub binds: usize,
    pub value_nodes: usize,
    pub joined_nodes: usize,
    pub value_depth: usize,
    pub entries_may_be_left_over: bool,
    pub missing_entry_is_behind_the_last: bool,
    pub tests_see_the_slots: bool,
    pub order_may_have_contents: bool,
}

#[derive(Clone, Debug)]
pub struct Showing {
    pub innermost_slot_counts: bool,
    pub parts_run_from_the_left: bool,
    pub each_stops_early: bool,
    pub bind_runs_on_nothing: bool,
    pub equals_runs_on_nothing: bool,
    pub equals_checks_its_source_first: bool,
    pub equals_by: Agreement,
    pub tests_stop_for_their_source: bool,
    pub marks_are_kept: bool,
    pub padding_is_kept: bool,
    pub made_words_are_orders: bool,
    pub order_is_a_source_of_11: bool,
    pub order_is_a_result_for_11: bool,
    pub order_is_an_element_for_13: bool,
    pub order_stops_06: bool,
    pub order_stops_07: bool,
    pub order_stops_12: bool,
}

/// When test 11 says yes. The padding of a text is the spaces behind its last other byte.
#[derive(Clone, Copy, Debug, PartialEq, Eq)]
pub enum Agreement {
    ButForPadding,
    Always,
    Never,
    ByteForByte,
    ButForPaddingOfSource,
    ButForPaddingOfResult,
    ButForOneSpaceBehind,
    ButForSpacesAround,
    ButForSpaces,
    BeforeTheFirstSpace,
    ButForTabsToo,
    ButForLineEndsToo,
    ButForByte00Too,
    ButForByteA0Too,
    SpacesAloneKeepAll,
    SpacesAloneKeepOne,
    // The rest look at texts without their padding.
    UpToTheShorter,
    Lengths,
    BehindTheFirstByte,
    BeforeTheLastByte,
    InEitherCase,
}

#[derive(Clone, Debug)]
pub struct PuttingBack {
    pub merging: Merging,
    pub locking: Locking,
    pub edits_go_by: EditsGoBy,
    pub slot_edits_are_kept: bool,
    pub slot_edits_are_merged: bool,
    pub beside_keeps_both: bool,
    pub branch_is_the_one_shown: bool,
    pub both_branches_keep_edits: bool,
    pub within_takes_the_mark: bool,
    pub deletion_spreads: bool,
    pub deleted_keep_their_contents: bool,
    pub new_texts_keep_their_padding: bool,
    pub orders_stay: OrdersStay,
}

/// Which orders are written with kind 03, and not with 01.
#[derive(Clone, Copy, Debug, PartialEq, Eq)]
pub enum OrdersStay {
    All,
    Unchanged,
    None,
}

#[derive(Clone, Copy, Debug, PartialEq, Eq)]
pub enum Merging {
    Document,
    FirstWins,
    LastWins,
    UntouchedVotes,
    EqualsClash,
    DeletedBeatsLocked,
    ClashYields,
    ButForPadding,
    PaddingIsNotLocked,
}

#[derive(Clone, Copy, Debug, PartialEq, Eq)]
pub enum Locking {
    Both,
    SourceOnly,
    ResultOnly,
    OnlyWhereEqual,
    UnlessPaddingAloneDiffers,
    Nothing,
}

#[derive(Clone, Copy, Debug, PartialEq, Eq)]
pub enum EditsGoBy {
    Number,
    Place,
    Text,
}

/// Which view lines were saved without touching, and what they do.
#[derive(Clone, Debug)]
pub struct Saving {
    pub marks: SavedMarks,
    pub old_text: OldText,
    pub comparison: Comparison,
    pub effect: SavedEffect,
}

/// The marks that do not count on a line with the old text.
#[derive(Clone, Copy, Debug, PartialEq, Eq)]
pub enum SavedMarks {
    Changed,
    Deleted,
    ChangedAndDeleted,
    None,
}

/// What a line's text is compared with.
#[derive(Clone, Copy, Debug, PartialEq, Eq)]
pub enum OldText {
    FreshLine,
    LineItself,
    AnyFreshLine,
    FreshLineAtItsNumber,
    MasterLineAtItsPlace,
}

/// When a text is the old one.
#[derive(Clone, Copy, Debug, PartialEq, Eq)]
pub enum Comparison {
    ByteForByte,
    Lengths,
    ButForPadding,
    UpToTheShorter,
    BeforeByte00,
    BehindTheFirstByte,
    BeforeTheLastByte,
    NeverOfEmpty,
    NeverOf32Bytes,
    InEitherCase,
}

/// What a saved line does to the standing of its node.
#[derive(Clone, Copy, Debug, PartialEq, Eq)]
pub enum SavedEffect {
    None,
    MarksTheNode,
    ClashesWithLock,
    ClashesWithDeletion,
    UndoesTheEdit,
}

#[derive(Clone, Debug)]
pub struct Sweeping {
    pub goes: Goes,
    pub marks_are_lost: bool,
    pub lines_are_renumbered: bool,
    pub first_number: u16,
    pub number_lines: NumberLines,
    pub length_counts_number_lines: bool,
    pub orders_stay: OrdersStay,
}

/// Which nodes go.
#[derive(Clone, Copy, Debug, PartialEq, Eq)]
pub enum Goes {
    DeletedWithContents,
    DeletedAlone,
    DeletedAndContentsRise,
    DeletedWithLeaves,
    DeletedWithItems,
    DeletedWithSiblingsBehind,
    UpToAnInnerDeleted,
    AllButChanged,
    ChangedToo,
}

/// What the second output says.
#[derive(Clone, Copy, Debug, PartialEq, Eq)]
pub enum NumberLines {
    Document,
    OldNumbers,
    OldNumberOfEachNew,
    RemovedAreZero,
    RemovedGetTheNext,
    LowByteFirst,
    KeptOnly,
    Always128,
}

#[derive(Clone, Debug)]
pub struct Judging {
    pub order: Vec<Stage>,
    pub whole_file_for_one_number: bool,
    pub marked_master: MarkedMaster,
    pub count_before_lines: bool,
    pub count_place: CountPlace,
    pub numbers_are_compared: bool,
    pub orders_differ_from_texts: bool,
    pub deleted_bytes_are_compared: bool,
    pub padding_is_compared: bool,
    pub program_marks_are_read_as_written: bool,
    pub clash_place: ClashPlace,
}

/// What is judged, each for one number of the table (the run for 6 and 7).
#[derive(Clone, Copy, Debug, PartialEq, Eq)]
pub enum Stage {
    Rooms,
    ProgramForm,
    ProgramTree,
    MasterForm,
    MasterBounds,
    Run,
    ViewForm,
    ViewComparison,
    ProgramMarks,
    Clash,
}

#[derive(Clone, Copy, Debug, PartialEq, Eq)]
pub enum MarkedMaster {
    RefusedByPutBack,
    NeverRefused,
    AlwaysRefused,
}

#[derive(Clone, Copy, Debug, PartialEq, Eq)]
pub enum CountPlace {
    Shorter,
    Longer,
}

#[derive(Clone, Copy, Debug, PartialEq, Eq)]
pub enum ClashPlace {
    Least,
    Greatest,
}

impl Rules {
    pub fn document() -> Rules {
        Rules {
            rooms: Rooms { output: 9_856, work: 16_384, numbers: 640 },
            lines: Lines::document(),
            bounds: Bounds::document(),
            showing: Showing::document(),
            putting_back: PuttingBack::document(),
            saving: Saving::document(),
            sweeping: Sweeping::document(),
            judging: Judging::document(),
        }
    }
}

impl Lines {
    fn document() -> Lines {
        Lines {
            program_lines: 96,
            node_lines: 128,
            longest_text: 32,
            first_tag_byte: 0x21,
            last_tag_byte: 0x7E,
            lower_case_digits: false,
            last_line_may_lack_its_end: false,
            number_low_byte_first: false,
            element_may_be_changed: false,
            orders: Orders::document(),
        }
    }

    /// The same for a file with these orders.
    pub fn with_orders(&self, orders: OrdersInFile) -> Lines {
        let mut lines = self.clone();
        match orders {
            OrdersInFile::OfTheWords => {}
            OrdersInFile::OfAnyBytes => lines.orders.spelling = Spelling::Any,
            OrdersInFile::None => lines.orders.words.clear(),
        }
        lines
    }
}

impl Orders {
    fn document() -> Orders {
        Orders {
            words: vec![b"hi-lo", b"lo-hi"],
            spelling: Spelling::ByteForByte,
            asked_under: vec![Mark::Untouched, Mark::Changed, Mark::Deleted],
            may_be_changed: true,
            in_masters: OrdersInFile::OfTheWords,
            in_views: OrdersInFile::OfTheWords,
        }
    }
}

impl Bounds {
    fn document() -> Bounds {
        Bounds {
            master_depth: 7,
            levels: 12,
            eaches: 3,
            binds: 4,
            value_nodes: 128,
            joined_nodes: 128,
            value_depth: 9,
            entries_may_be_left_over: false,
            missing_entry_is_behind_the_last: true,
            tests_see_the_slots: true,
            order_may_have_contents: false,
        }
    }
}

impl Showing {
    fn document() -> Showing {
        Showing {
            innermost_slot_counts: true,
            parts_run_from_the_left: true,
            each_stops_early: true,
            bind_runs_on_nothing: true,
            equals_runs_on_nothing: true,
            equals_checks_its_source_first: true,
            equals_by: Agreement::ButForPadding,
            tests_stop_for_their_source: true,
            marks_are_kept: true,
            padding_is_kept: true,
            made_words_are_orders: false,
            order_is_a_source_of_11: true,
            order_is_a_result_for_11: true,
            order_is_an_element_for_13: false,
            order_stops_06: true,
            order_stops_07: true,
            order_stops_12: true,
        }
    }
}

impl PuttingBack {
    fn document() -> PuttingBack {
        PuttingBack {
            merging: Merging::Document,
            locking: Locking::Both,
            edits_go_by: EditsGoBy::Number,
            slot_edits_are_kept: true,
            slot_edits_are_merged: true,
            beside_keeps_both: true,
            branch_is_the_one_shown: true,
            both_branches_keep_edits: true,
            within_takes_the_mark: true,
            deletion_spreads: false,
            deleted_keep_their_contents: true,
            new_texts_keep_their_padding: true,
            orders_stay: OrdersStay::All,
        }
    }
}

impl Saving {
    fn document() -> Saving {
        Saving {
            marks: SavedMarks::Changed,
            old_text: OldText::FreshLine,
            comparison: Comparison::ByteForByte,
            effect: SavedEffect::None,
        }
    }
}

impl Sweeping {
    fn document() -> Sweeping {
        Sweeping {
            goes: Goes::DeletedWithContents,
            marks_are_lost: true,
            lines_are_renumbered: true,
            first_number: 0,
            number_lines: NumberLines::Document,
            length_counts_number_lines: false,
            orders_stay: OrdersStay::All,
        }
    }
}

impl Judging {
    fn document() -> Judging {
        Judging {
            order: vec![
                Stage::Rooms,
                Stage::ProgramForm,
                Stage::ProgramTree,
                Stage::MasterForm,
                Stage::MasterBounds,
                Stage::Run,
                Stage::ViewForm,
                Stage::ViewComparison,
                Stage::ProgramMarks,
                Stage::Clash,
            ],
            whole_file_for_one_number: true,
            marked_master: MarkedMaster::RefusedByPutBack,
            count_before_lines: false,
            count_place: CountPlace::Shorter,
            numbers_are_compared: true,
            orders_differ_from_texts: true,
            deleted_bytes_are_compared: true,
            padding_is_compared: true,
            program_marks_are_read_as_written: true,
            clash_place: ClashPlace::Least,
        }
    }
}
