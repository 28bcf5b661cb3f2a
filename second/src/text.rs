//! When two texts are the same, and when test 11 says yes.

use crate::rules::Agreement;

/// Text equality: tags, the words of an order, the view comparison, whether a line marked 01 has
/// its old text, and the merging of two changed texts.
pub fn equal(one: &[u8], other: &[u8]) -> bool {
    one == other
}

/// Equality but for the padding, which is what test 11 asks for.
pub fn equal_but_for_padding(one: &[u8], other: &[u8]) -> bool {
    equal(unpadded(one), unpadded(other))
}

/// A text without its padding, the bytes 20 behind its last other byte.
pub fn unpadded(text: &[u8]) -> &[u8] {
    without_behind(b" ", text)
}

pub fn take_padding_off(text: &mut Vec<u8>) {
    text.truncate(unpadded(text).len());
}

/// A text without those of the bytes that stand behind its last other byte.
fn without_behind<'a>(bytes: &[u8], text: &'a [u8]) -> &'a [u8] {
    let last_other = text.iter().rposition(|byte| !bytes.contains(byte));
    last_other.map_or(&[], |last| &text[..=last])
}

/// Whether test 11 says yes: by texts without their padding, all other agreements are mistaken.
pub fn agree(source: &[u8], result: &[u8], agreement: Agreement) -> bool {
    let of_both = |part: fn(&[u8]) -> &[u8]| equal(part(source), part(result));
    let same_length = unpadded(source).len() == unpadded(result).len();
    match agreement {
        Agreement::ButForPadding => equal_but_for_padding(source, result),
        Agreement::Always => true,
        Agreement::Never => false,
        Agreement::ByteForByte => equal(source, result),
        Agreement::ButForPaddingOfSource => equal(unpadded(source), result),
        Agreement::ButForPaddingOfResult => equal(source, unpadded(result)),
        Agreement::ButForOneSpaceBehind => of_both(|text| text.strip_suffix(b" ").unwrap_or(text)),
        Agreement::ButForSpacesAround => of_both(|text| behind_spaces(unpadded(text))),
        Agreement::ButForSpaces => without_spaces(source) == without_spaces(result),
        Agreement::BeforeTheFirstSpace => of_both(before_the_first_space),
        Agreement::ButForTabsToo => of_both(|text| without_behind(b" \t", text)),
        Agreement::ButForLineEndsToo => of_both(|text| without_behind(b" \n\r", text)),
        Agreement::ButForByte00Too => of_both(|text| without_behind(b" \0", text)),
        Agreement::ButForByteA0Too => of_both(|text| without_behind(b" \xA0", text)),
        Agreement::SpacesAloneKeepAll => of_both(|text| unpadded_but_spaces_alone(text, text)),
        Agreement::SpacesAloneKeepOne => of_both(|text| unpadded_but_spaces_alone(text, b" ")),
        Agreement::UpToTheShorter => up_to_the_shorter(unpadded(source), unpadded(result)),
        Agreement::Lengths => same_length,
        Agreement::BehindTheFirstByte => {
            same_length && of_both(|text| behind_the_first(unpadded(text)))
        }
        Agreement::BeforeTheLastByte => {
            same_length && of_both(|text| before_the_last(unpadded(text)))
        }
        Agreement::InEitherCase => unpadded(source).eq_ignore_ascii_case(unpadded(result)),
    }
}

/// A text without its padding, but for one of spaces alone, of which so much is kept.
fn unpadded_but_spaces_alone<'a>(text: &'a [u8], kept: &'a [u8]) -> &'a [u8] {
    match unpadded(text) {
        [] if !text.is_empty() => kept,
        word => word,
    }
}

pub fn behind_spaces(text: &[u8]) -> &[u8] {
    let first_other = text.iter().position(|&byte| byte != b' ');
    &text[first_other.unwrap_or(text.len())..]
}

fn without_spaces(text: &[u8]) -> Vec<u8> {
    text.iter().copied().filter(|&byte| byte != b' ').collect()
}

fn before_the_first_space(text: &[u8]) -> &[u8] {
    text.split(|&byte| byte == b' ').next().unwrap_or_default()
}

pub fn up_to_the_shorter(one: &[u8], other: &[u8]) -> bool {
    one.starts_with(other) || other.starts_with(one)
}

pub fn behind_the_first(text: &[u8]) -> &[u8] {
    text.get(1..).unwrap_or_default()
}

pub fn before_the_last(text: &[u8]) -> &[u8] {
    &text[..text.len().saturating_sub(1)]
}
