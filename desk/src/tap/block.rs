//! The body of a pcapng block: its fields, its frame, and the description of an interface.

use super::input::{octets_at, Damage, Order};
use super::{LONGEST_FRAME, MICROSECONDS};
use std::ops::Range;

const OPTION_END: u16 = 0;
pub const OPTION_RESOLUTION: u16 = 9;
const OPTION_OFFSET: u16 = 14;

/// An interface as its section describes it.
#[derive(Clone, Copy, Debug, PartialEq, Eq)]
pub struct Interface {
    pub link: u16,
    /// The most octets of a frame that are kept; 0 for no bound.
    pub snap: u32,
    /// Parts of a second that times count.
    parts: u128,
    /// Seconds that are added to every time.
    offset: i64,
}

impl Interface {
    /// Microseconds since 1970. No product here leaves its range: 64 bits times a million.
    pub fn micros(&self, ticks: u64) -> i128 {
        let micros = u128::from(ticks) * MICROSECONDS.unsigned_abs() / self.parts;
        i128::try_from(micros).unwrap_or(i128::MAX / 2) + i128::from(self.offset) * MICROSECONDS
    }
}

/// The body of a block, and where in the file it starts.
pub struct Body<'a> {
    pub order: Order,
    pub octets: &'a [u8],
    pub offset: u64,
}

impl Body<'_> {
    pub fn damage(&self, at: usize, what: impl Into<String>) -> Damage {
        Damage::new(self.offset.saturating_add(at as u64), what)
    }

    pub fn u16(&self, at: usize) -> Result<u16, Damage> {
        self.order
            .u16_at(self.octets, at)
            .ok_or_else(|| self.short())
    }

    pub fn u32(&self, at: usize) -> Result<u32, Damage> {
        self.order
            .u32_at(self.octets, at)
            .ok_or_else(|| self.short())
    }

    fn short(&self) -> Damage {
        let length = self.octets.len();
        self.damage(
            0,
            format!("a block with {length} octets, too few for its fields"),
        )
    }

    /// Where a frame of a length is that starts at `start`; the length stands at `said`.
    pub fn frame(&self, start: usize, length: u32, said: usize) -> Result<Range<usize>, Damage> {
        if length > LONGEST_FRAME {
            return Err(self.damage(
                said,
                format!("a frame of {length} octets, above {LONGEST_FRAME}"),
            ));
        }
        let end = start.saturating_add(length as usize);
        if end > self.octets.len() {
            let room = self.octets.len().saturating_sub(start);
            return Err(self.damage(
                said,
                format!("a frame of {length} octets in a block with room for {room}"),
            ));
        }
        Ok(start..end)
    }

    pub fn interface(&self) -> Result<Interface, Damage> {
        let mut interface = Interface {
            link: self.u16(0)?,
            snap: self.u32(4)?,
            parts: MICROSECONDS.unsigned_abs(),
            offset: 0,
        };
        let mut at = 8;
        while at < self.octets.len() {
            let (code, length) = (self.u16(at)?, usize::from(self.u16(at + 2)?));
            let value = self.octets.get(at + 4..at + 4 + length);
            let value =
                value.ok_or_else(|| self.damage(at + 2, "an option goes past its block"))?;
            match code {
                OPTION_END => break,
                OPTION_RESOLUTION => interface.parts = self.parts(at, value)?,
                OPTION_OFFSET => {
                    let seconds = octets_at(value, 0).filter(|_| length == 8);
                    let seconds = seconds
                        .ok_or_else(|| self.damage(at + 2, "an if_tsoffset is 8 octets long"))?;
                    interface.offset = self.order.i64(seconds);
                }
                _ => {}
            }
            at += 4 + length.next_multiple_of(4);
        }
        Ok(interface)
    }

    /// How many parts of a second an if_tsresol means: a power of ten, or of two where its first bit
    /// is set. 64 bits of finer ones are less than a second.
    fn parts(&self, at: usize, value: &[u8]) -> Result<u128, Damage> {
        let &[resolution] = value else {
            return Err(self.damage(at + 2, "an if_tsresol is one octet long"));
        };
        let power = u32::from(resolution & 0x7f);
        match resolution & 0x80 {
            0 if power <= 19 => Ok(10_u128.pow(power)),
            0x80 if power <= 64 => Ok(1 << power),
            _ => Err(self.damage(
                at + 4,
                format!("an if_tsresol of {resolution:#04x}: too fine"),
            )),
        }
    }
}
