//! Many cases from one input: the reply line of each, its output lines, a sweep's number lines, and
//! its buffers line.

use crate::calls;
use crate::lines;
use crate::rules::Rules;
use crate::stream::{self, Next};
use std::io::{self, Read, Write};

/// The buffers are as promised. There are none here, so this line says what has to be.
const AS_PROMISED: u8 = 0x00;
const BROKEN: u8 = 0xFF;

pub fn replay(input: &mut impl Read, output: &mut impl Write, rules: &Rules) -> io::Result<()> {
    loop {
        match stream::read(input) {
            Next::Case(case) => {
                output.write_all(&calls::answer(&case, rules).printed())?;
                output.write_all(&lines::write(&[AS_PROMISED]))?;
            }
            Next::End => return Ok(()),
            Next::Broken => return output.write_all(&lines::write(&[BROKEN])),
        }
    }
}
