//! How a capture begins and ends: wrong headers, cut records.

use super::Maker;
use crate::capture::{append_head, HEADER};

impl Maker {
    /// Makes the header wrong in one octet, or cuts the capture within it.
    /// Says whether anything can follow.
    pub(super) fn spoil_header(&mut self) -> bool {
        let at = self.random.below(HEADER.len() as u64) as usize;
        let follows = self.random.chance(60);
        if follows {
            self.capture[at] ^= self.random.pick(&[1, 2, 0x20, 0x80]);
        } else {
            self.capture.truncate(at);
        }
        follows
    }

    /// Ends the capture: whole, or with a record that cannot be read.
    pub(super) fn end(&mut self) {
        match self.random.below(10) {
            0..=3 => {}
            4..=7 => self.cut_last_record(),
            8 => self.unknown_kind(),
            _ => self.too_long(),
        }
    }

    /// A record with a body, cut at any place within it.
    fn cut_last_record(&mut self) {
        let body = self.random.pick(&[0, 1, 28, 35, 44, 2_048]);
        let kind = self.random.below(9) as u16;
        let start = self.capture.len();
        let time = self.table.clock();
        append_head(&mut self.capture, time, 100, kind, body as u16);
        let octets = self.random.octets(body);
        self.capture.extend_from_slice(&octets);
        let whole = self.capture.len() - start;
        let head = self.random.between(1, 15) as usize;
        let anywhere = self.random.between(1, whole as u64 - 1) as usize;
        let kept = self.random.pick(&[head, anywhere, whole - 1]);
        self.capture.truncate(start + kept);
    }

    /// A record of unknown kind, with octets and a good record behind it.
    fn unknown_kind(&mut self) {
        let any = self.random.between(9, 65_535) as u16;
        let kind = self.random.pick(&[9, 10, 256, 261, 65_535, any]);
        let time = self.table.clock();
        append_head(&mut self.capture, time, 100, kind, 4);
        self.capture.extend_from_slice(&[0; 4]);
        append_head(&mut self.capture, time, 100, 0, 0);
    }

    /// A record whose length is too great, with all its octets.
    fn too_long(&mut self) {
        let any = self.random.between(2_049, 65_535) as u16;
        let length = self.random.pick(&[2_049, 4_096, 65_535, any]);
        let kind = self.random.below(9) as u16;
        let time = self.table.clock();
        append_head(&mut self.capture, time, 100, kind, length);
        self.capture
            .extend_from_slice(&vec![0; usize::from(length)]);
        append_head(&mut self.capture, time, 100, 0, 0);
    }
}
