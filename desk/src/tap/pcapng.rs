//! pcapng: sections of blocks. Each section says its order of octets and describes its interfaces
//! anew. Blocks that bring no packet and describe no interface are passed over.

use super::block::{Body, Interface};
use super::input::{Damage, Input, Order};
use super::Packet;
use std::io::Read;
use std::ops::Range;

/// The type of a section header: the same in both orders.
pub const SECTION_HEADER: [u8; 4] = [0x0a, 0x0d, 0x0d, 0x0a];
pub const INTERFACE: u32 = 1;
/// Out of use, but there are taps that have it.
const OLD_PACKET: u32 = 2;
const SIMPLE_PACKET: u32 = 3;
pub const ENHANCED_PACKET: u32 = 6;
pub const BYTE_ORDER: u32 = 0x1a2b_3c4d;

/// The longest block that is kept; others are passed over whatever their length.
const LONGEST_BLOCK: u32 = 16 * 1024 * 1024;
/// Type, length, and the length again at the end.
const AROUND: u32 = 12;
/// Type, length, byte order, version, section length, and the length again.
const SHORTEST_SECTION: u32 = 28;
/// Where the body of a block starts.
const BODY: u64 = 8;
/// What stands before the frame in an enhanced packet block.
const PACKET_HEAD: usize = 20;
/// As many as an old packet block can name.
const MOST_INTERFACES: usize = 65_536;

/// Where a packet's frame is in its block, and what the block says of it.
struct Place {
    time: Option<i128>,
    link: u16,
    frame: Range<usize>,
    cut: bool,
}

/// The section that is being read.
pub struct Pcapng {
    order: Order,
    interfaces: Vec<Interface>,
}

impl Pcapng {
    /// Reads the first section header behind its type.
    pub fn start<R: Read>(input: &mut Input<R>) -> Result<Pcapng, Damage> {
        let order = section(input)?;
        let interfaces = Vec::new();
        Ok(Pcapng { order, interfaces })
    }

    /// The next packet; its block takes the place of what `room` holds.
    pub fn next<'a, R: Read>(
        &mut self,
        input: &mut Input<R>,
        room: &'a mut Vec<u8>,
    ) -> Result<Option<Packet<'a>>, Damage> {
        loop {
            let offset = input.offset();
            let Some(kind) = input.next::<4>("the type of a block")? else {
                return Ok(None);
            };
            if kind == SECTION_HEADER {
                *self = Pcapng::start(input)?;
                continue;
            }
            if let Some(place) = self.block(input, room, self.order.u32(kind))? {
                return Ok(Some(Packet {
                    offset,
                    time: place.time,
                    link: place.link,
                    frame: room.get(place.frame).unwrap_or(&[]),
                    cut: place.cut,
                }));
            }
        }
    }

    /// Reads a block behind its type, and tells where its packet is if it has one.
    fn block<R: Read>(
        &mut self,
        input: &mut Input<R>,
        room: &mut Vec<u8>,
        kind: u32,
    ) -> Result<Option<Place>, Damage> {
        let start = input.offset().saturating_sub(4);
        let length = block_length(self.order, input, AROUND)?;
        let body = u64::from(length - AROUND);
        if !matches!(
            kind,
            INTERFACE | OLD_PACKET | SIMPLE_PACKET | ENHANCED_PACKET
        ) {
            input.pass_over(body, "a block")?;
            closing_length(self.order, input, length)?;
            return Ok(None);
        }
        if length > LONGEST_BLOCK {
            return Err(Damage::new(
                start.saturating_add(4),
                format!("a block of {length} octets, above {LONGEST_BLOCK}"),
            ));
        }
        input.take_into(room, body, "a block")?;
        closing_length(self.order, input, length)?;
        let body = Body {
            order: self.order,
            octets: room,
            offset: start.saturating_add(BODY),
        };
        match kind {
            INTERFACE => self.add_interface(&body).map(|()| None),
            SIMPLE_PACKET => self.simple(&body).map(Some),
            _ => self.dated(&body, kind == OLD_PACKET).map(Some),
        }
    }

    fn add_interface(&mut self, body: &Body) -> Result<(), Damage> {
        if self.interfaces.len() >= MOST_INTERFACES {
            return Err(body.damage(0, format!("more than {MOST_INTERFACES} interfaces")));
        }
        self.interfaces.push(body.interface()?);
        Ok(())
    }

    fn interface(&self, body: &Body, number: u32) -> Result<&Interface, Damage> {
        let known = self.interfaces.len();
        let found = usize::try_from(number).ok();
        found.and_then(|at| self.interfaces.get(at)).ok_or_else(|| {
            body.damage(
                0,
                format!("a packet of interface {number}, and the section has described {known}"),
            )
        })
    }

    /// An enhanced packet block, or an old one: its number of an interface is shorter.
    fn dated(&self, body: &Body, old: bool) -> Result<Place, Damage> {
        let number = match old {
            true => u32::from(body.u16(0)?),
            false => body.u32(0)?,
        };
        let interface = self.interface(body, number)?;
        let ticks = u64::from(body.u32(4)?) << 32 | u64::from(body.u32(8)?);
        let (captured, original) = (body.u32(12)?, body.u32(16)?);
        Ok(Place {
            time: Some(interface.micros(ticks)),
            link: interface.link,
            frame: body.frame(PACKET_HEAD, captured, 12)?,
            cut: captured < original,
        })
    }

    /// A simple packet block: it is of the first interface, and has no time.
    fn simple(&self, body: &Body) -> Result<Place, Damage> {
        let interface = self.interface(body, 0)?;
        let original = body.u32(0)?;
        let captured = match interface.snap {
            0 => original,
            snap => original.min(snap),
        };
        Ok(Place {
            time: None,
            link: interface.link,
            frame: body.frame(4, captured, 0)?,
            cut: captured < original,
        })
    }
}

/// Reads a section header behind its type, and gives the order of its octets.
fn section<R: Read>(input: &mut Input<R>) -> Result<Order, Damage> {
    let start = input.offset().saturating_sub(4);
    let length = input.exactly::<4>("the length of a section header")?;
    let mark = input.exactly::<4>("the byte-order magic")?;
    let order = [Order::Big, Order::Little];
    let order = order
        .into_iter()
        .find(|order| order.u32(mark) == BYTE_ORDER);
    let order = order.ok_or_else(|| Damage::new(start.saturating_add(8), "no byte-order magic"))?;
    let length = checked(order.u32(length), SHORTEST_SECTION, start)?;
    let [a, b, c, d] = input.exactly("the version of a section")?;
    let (major, minor) = (order.u16([a, b]), order.u16([c, d]));
    // 1.2 was written by some and is the same.
    if !matches!((major, minor), (1, 0 | 2)) {
        return Err(Damage::new(
            start.saturating_add(12),
            format!("a pcapng of version {major}.{minor}, not 1.0"),
        ));
    }
    // What is left: the section's length, which need not be known, and options.
    input.pass_over(u64::from(length - 20), "a section header")?;
    closing_length(order, input, length)?;
    Ok(order)
}

/// Reads the length of a block behind its type.
fn block_length<R: Read>(order: Order, input: &mut Input<R>, shortest: u32) -> Result<u32, Damage> {
    let start = input.offset().saturating_sub(4);
    let length = order.u32(input.exactly("the length of a block")?);
    checked(length, shortest, start)
}

/// A block's length, if it is one.
fn checked(length: u32, shortest: u32, start: u64) -> Result<u32, Damage> {
    match length >= shortest && length % 4 == 0 {
        true => Ok(length),
        false => Err(Damage::new(
            start.saturating_add(4),
            format!("a block of {length} octets: below {shortest}, or no multiple of 4"),
        )),
    }
}

/// Reads the length at the end of a block, which has to be the one at its start.
fn closing_length<R: Read>(order: Order, input: &mut Input<R>, length: u32) -> Result<(), Damage> {
    let at = input.offset();
    let closing = order.u32(input.exactly("the length at the end of a block")?);
    match closing == length {
        true => Ok(()),
        false => Err(Damage::new(
            at,
            format!("a block of {length} octets ends as one of {closing}"),
        )),
    }
}
