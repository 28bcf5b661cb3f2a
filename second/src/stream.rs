//! Cases, and the stream in which they follow one another.

use std::io::{self, Read};

pub const LARGEST_OUTPUT_ROOM: u32 = 16_384;
/// In numbers.
pub const LARGEST_WORK_ROOM: u32 = 20_480;
pub const LARGEST_NUMBERS_ROOM: u32 = 16_384;
pub const LONGEST_FILE: usize = 16_384;

#[derive(Clone, Copy, Debug, PartialEq, Eq)]
pub enum Call {
    Show,
    PutBack,
    Sweep,
}

#[derive(Clone, Debug, PartialEq, Eq)]
pub struct Case {
    pub call: Call,
    pub output_room: u32,
    /// The work slice's, in numbers; for a sweep the second output's, in bytes.
    pub second_room: u32,
    pub master: Vec<u8>,
    pub program: Vec<u8>,
    pub view: Vec<u8>,
}

/// What stands at a point of the stream.
#[derive(Debug, PartialEq, Eq)]
pub enum Next {
    Case(Case),
    End,
    Broken,
}

impl Case {
    /// A case with the least rooms that suffice.
    pub fn with_least_rooms(call: Call, master: Vec<u8>, program: Vec<u8>, view: Vec<u8>) -> Case {
        let second_room = match call {
            Call::Show | Call::PutBack => 16_384,
            Call::Sweep => 640,
        };
        Case { call, output_room: 9_856, second_room, master, program, view }
    }

    /// A sweep takes a master alone.
    pub fn sweep(master: Vec<u8>) -> Case {
        Case::with_least_rooms(Call::Sweep, master, Vec::new(), Vec::new())
    }

    pub fn write(&self, stream: &mut Vec<u8>) {
        stream.push(match self.call {
            Call::Show => 0x01,
            Call::PutBack => 0x02,
            Call::Sweep => 0x04,
        });
        stream.extend(self.output_room.to_be_bytes());
        stream.extend(self.second_room.to_be_bytes());
        for file in [&self.master, &self.program, &self.view] {
            stream.extend((file.len() as u16).to_be_bytes());
        }
        for file in [&self.master, &self.program, &self.view] {
            stream.extend(file);
        }
    }
}

/// Reads the next case; an input that fails is taken as one that ends.
pub fn read(input: &mut impl Read) -> Next {
    let mut call = [0];
    match input.read_exact(&mut call) {
        Ok(()) => {}
        Err(_) => return Next::End,
    }
    let call = match call[0] {
        0x01 => Call::Show,
        0x02 => Call::PutBack,
        0x04 => Call::Sweep,
        _ => return Next::Broken,
    };
    match rest_of_case(call, input) {
        Ok(Some(case)) => Next::Case(case),
        Ok(None) | Err(_) => Next::Broken,
    }
}

fn rest_of_case(call: Call, input: &mut impl Read) -> io::Result<Option<Case>> {
    let output_room = room(input)?;
    let second_room = room(input)?;
    let lengths = [length(input)?, length(input)?, length(input)?];
    if output_room > LARGEST_OUTPUT_ROOM
        || second_room > largest_second_room(call)
        || lengths.iter().any(|&length| length > LONGEST_FILE)
    {
        return Ok(None);
    }
    let [master, program, view] = lengths;
    let (master, program, view) = (file(input, master)?, file(input, program)?, file(input, view)?);
    Ok(Some(Case { call, output_room, second_room, master, program, view }))
}

fn largest_second_room(call: Call) -> u32 {
    match call {
        Call::Show | Call::PutBack => LARGEST_WORK_ROOM,
        Call::Sweep => LARGEST_NUMBERS_ROOM,
    }
}

fn room(input: &mut impl Read) -> io::Result<u32> {
    let mut bytes = [0; 4];
    input.read_exact(&mut bytes)?;
    Ok(u32::from_be_bytes(bytes))
}

fn length(input: &mut impl Read) -> io::Result<usize> {
    let mut bytes = [0; 2];
    input.read_exact(&mut bytes)?;
    Ok(usize::from(u16::from_be_bytes(bytes)))
}

fn file(input: &mut impl Read, length: usize) -> io::Result<Vec<u8>> {
    let mut bytes = vec![0; length];
    input.read_exact(&mut bytes)?;
    Ok(bytes)
}
