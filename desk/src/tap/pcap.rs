//! pcap: a file header, then a head and a frame for each packet.

use super::input::{Damage, Input, Order};
use super::{Packet, LONGEST_FRAME, MICROSECONDS};
use std::io::Read;

const HEAD: &str = "the head of a packet";

/// What the file header says of all packets.
#[derive(Clone, Copy, Debug, PartialEq, Eq)]
pub struct Pcap {
    order: Order,
    /// Parts of a second that the fraction counts: a million or a thousand million.
    parts: u32,
    link: u16,
}

/// What a magic number says: the order of octets, and how finely time is told.
pub fn magic(octets: [u8; 4]) -> Option<(Order, u32)> {
    [Order::Big, Order::Little]
        .into_iter()
        .find_map(|order| match order.u32(octets) {
            0xa1b2_c3d4 => Some((order, 1_000_000)),
            0xa1b2_3c4d => Some((order, 1_000_000_000)),
            _ => None,
        })
}

impl Pcap {
    /// Reads the file header behind its magic number.
    pub fn start<R: Read>(
        input: &mut Input<R>,
        (order, parts): (Order, u32),
    ) -> Result<Pcap, Damage> {
        let version_at = input.offset();
        let version = input.exactly::<4>("the version of a pcap")?;
        let [a, b, c, d] = version;
        let (major, minor) = (order.u16([a, b]), order.u16([c, d]));
        if (major, minor) != (2, 4) {
            return Err(Damage::new(
                version_at,
                format!("a pcap of version {major}.{minor}, not 2.4"),
            ));
        }
        // Time zone and accuracy are zero in practice; the snap length bounds nothing that is not
        // bounded here.
        input.exactly::<12>("the header of a pcap")?;
        let network = order.u32(input.exactly("the link type of a pcap")?);
        // The upper half tells of a frame check sequence.
        let link = (network & 0xffff) as u16;
        Ok(Pcap { order, parts, link })
    }

    /// The next packet; its frame takes the place of what `room` holds.
    pub fn next<'a, R: Read>(
        &self,
        input: &mut Input<R>,
        room: &'a mut Vec<u8>,
    ) -> Result<Option<Packet<'a>>, Damage> {
        let offset = input.offset();
        let Some(head) = input.next::<16>(HEAD)? else {
            return Ok(None);
        };
        let [seconds, fraction, captured, original] = fields(&head, self.order);
        if fraction >= self.parts {
            return Err(Damage::new(
                offset.saturating_add(4),
                format!(
                    "a fraction of a second of {fraction} parts of {}",
                    self.parts
                ),
            ));
        }
        if captured > LONGEST_FRAME {
            return Err(Damage::new(
                offset.saturating_add(8),
                format!("a frame of {captured} octets, above {LONGEST_FRAME}"),
            ));
        }
        input.take_into(room, captured.into(), "a frame")?;
        let micros = i128::from(seconds) * MICROSECONDS
            + i128::from(fraction) * MICROSECONDS / i128::from(self.parts);
        Ok(Some(Packet {
            offset,
            time: Some(micros),
            link: self.link,
            frame: room,
            cut: captured < original,
        }))
    }
}

/// The four numbers of a packet's head.
fn fields(head: &[u8; 16], order: Order) -> [u32; 4] {
    let mut numbers = [0; 4];
    for (number, field) in numbers.iter_mut().zip(head.chunks_exact(4)) {
        *number = order.u32_at(field, 0).unwrap_or(0);
    }
    numbers
}
