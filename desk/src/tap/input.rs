//! Octets of a file with their offset, so that whatever is wrong is named with its place.

use crate::cli::Failure;
use std::io::{ErrorKind, Read};

/// What is wrong with a tap, and at which octet of the file.
#[derive(Clone, Debug, PartialEq, Eq)]
pub struct Damage {
    pub offset: u64,
    pub what: String,
}

impl Damage {
    pub fn new(offset: u64, what: impl Into<String>) -> Damage {
        let what = what.into();
        Damage { offset, what }
    }

    /// The same as a failure that names the file.
    pub fn of_file(&self, name: &str) -> Failure {
        let Damage { offset, what } = self;
        Failure::new(format!("{name}: offset {offset}: {what}"))
    }
}

/// The order of the octets of a number.
#[derive(Clone, Copy, Debug, PartialEq, Eq)]
pub enum Order {
    Big,
    Little,
}

impl Order {
    pub fn u16(self, octets: [u8; 2]) -> u16 {
        match self {
            Order::Big => u16::from_be_bytes(octets),
            Order::Little => u16::from_le_bytes(octets),
        }
    }

    pub fn u32(self, octets: [u8; 4]) -> u32 {
        match self {
            Order::Big => u32::from_be_bytes(octets),
            Order::Little => u32::from_le_bytes(octets),
        }
    }

    pub fn i64(self, octets: [u8; 8]) -> i64 {
        match self {
            Order::Big => i64::from_be_bytes(octets),
            Order::Little => i64::from_le_bytes(octets),
        }
    }

    /// The 16-bit number at `at`, if it is there.
    pub fn u16_at(self, octets: &[u8], at: usize) -> Option<u16> {
        octets_at(octets, at).map(|field| self.u16(field))
    }

    /// The 32-bit number at `at`, if it is there.
    pub fn u32_at(self, octets: &[u8], at: usize) -> Option<u32> {
        octets_at(octets, at).map(|field| self.u32(field))
    }
}

/// `N` octets from `at` on, if they are there.
pub fn octets_at<const N: usize>(octets: &[u8], at: usize) -> Option<[u8; N]> {
    octets.get(at..)?.first_chunk().copied()
}

/// A file that is read from front to end.
pub struct Input<R> {
    file: R,
    offset: u64,
}

impl<R: Read> Input<R> {
    pub fn new(file: R) -> Input<R> {
        Input { file, offset: 0 }
    }

    /// How many octets were read.
    pub fn offset(&self) -> u64 {
        self.offset
    }

    /// The next `N` octets, or none where the file ends.
    pub fn next<const N: usize>(&mut self, name: &str) -> Result<Option<[u8; N]>, Damage> {
        let mut octets = [0; N];
        let start = self.offset;
        match self.fill(&mut octets)? {
            0 => Ok(None),
            length if length < N => Err(cut(start, name, length as u64, N as u64)),
            _ => Ok(Some(octets)),
        }
    }

    /// The next `N` octets, which have to be there.
    pub fn exactly<const N: usize>(&mut self, name: &str) -> Result<[u8; N], Damage> {
        let start = self.offset;
        self.next(name)?
            .ok_or_else(|| cut(start, name, 0, N as u64))
    }

    /// The next `length` octets in place of what `room` holds. Room is taken for what is there, not
    /// for what a length field says.
    pub fn take_into(&mut self, room: &mut Vec<u8>, length: u64, name: &str) -> Result<(), Damage> {
        let start = self.offset;
        room.clear();
        let read = (&mut self.file).take(length).read_to_end(room);
        let found = read.map_err(|error| unread(start, &error))? as u64;
        self.offset = start.saturating_add(found);
        if found < length {
            return Err(cut(start, name, found, length));
        }
        Ok(())
    }

    /// Passes over `length` octets, in constant memory.
    pub fn pass_over(&mut self, length: u64, name: &str) -> Result<(), Damage> {
        let start = self.offset;
        let mut rest = (&mut self.file).take(length);
        let copied = std::io::copy(&mut rest, &mut std::io::sink());
        let found = copied.map_err(|error| unread(start, &error))?;
        self.offset = start.saturating_add(found);
        if found < length {
            return Err(cut(start, name, found, length));
        }
        Ok(())
    }

    fn fill(&mut self, room: &mut [u8]) -> Result<usize, Damage> {
        let mut length = 0;
        while let Some(rest) = room.get_mut(length..).filter(|rest| !rest.is_empty()) {
            match self.file.read(rest) {
                Ok(0) => break,
                Ok(more) => length += more,
                Err(error) if error.kind() == ErrorKind::Interrupted => {}
                Err(error) => return Err(unread(self.offset, &error)),
            }
        }
        self.offset = self.offset.saturating_add(length as u64);
        Ok(length)
    }
}

fn unread(offset: u64, error: &std::io::Error) -> Damage {
    Damage::new(offset, format!("cannot be read: {error}"))
}

fn cut(offset: u64, name: &str, found: u64, wanted: u64) -> Damage {
    Damage::new(
        offset,
        format!("{name}: the file ends after {found} of {wanted} octets"),
    )
}
