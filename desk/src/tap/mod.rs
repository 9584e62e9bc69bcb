//! Taps: files of Ethernet frames with the time of each, pcap or pcapng. They are read packet by
//! packet, in memory for one packet.

pub mod block;
pub mod frame;
pub mod input;
pub mod pcap;
pub mod pcapng;
pub mod wall;
pub mod writer;

use input::{Damage, Input};
use pcap::Pcap;
use pcapng::Pcapng;
use std::io::Read;

/// Microseconds in a second.
pub const MICROSECONDS: i128 = 1_000_000;
/// The link type of Ethernet.
pub const ETHERNET: u16 = 1;
/// The longest frame that is read: what tools that write taps allow at most.
pub const LONGEST_FRAME: u32 = 262_144;

/// A packet as the tap has it.
#[derive(Clone, Debug, PartialEq, Eq)]
pub struct Packet<'a> {
    /// Where the packet stands in the file.
    pub offset: u64,
    /// Microseconds since 1970, less than one cut off; none in a simple packet block.
    pub time: Option<i128>,
    pub link: u16,
    pub frame: &'a [u8],
    /// The tap kept less than came.
    pub cut: bool,
}

enum Form {
    Pcap(Pcap),
    Pcapng(Pcapng),
}

/// A tap that is read from front to end.
pub struct Tap<R> {
    input: Input<R>,
    form: Form,
    room: Vec<u8>,
}

impl<R: Read> Tap<R> {
    /// Reads what stands before the first packet; which form it is, the first four octets say.
    pub fn start(file: R) -> Result<Tap<R>, Damage> {
        let mut input = Input::new(file);
        let magic = input.exactly::<4>("the magic number")?;
        let form = if magic == pcapng::SECTION_HEADER {
            Form::Pcapng(Pcapng::start(&mut input)?)
        } else if let Some(said) = pcap::magic(magic) {
            Form::Pcap(Pcap::start(&mut input, said)?)
        } else {
            let [a, b, c, d] = magic;
            return Err(Damage::new(
                0,
                format!("{a:02x}{b:02x}{c:02x}{d:02x} starts no pcap and no pcapng"),
            ));
        };
        Ok(Tap {
            input,
            form,
            room: Vec::new(),
        })
    }

    /// How many octets were read.
    pub fn offset(&self) -> u64 {
        self.input.offset()
    }

    pub fn next_packet(&mut self) -> Result<Option<Packet<'_>>, Damage> {
        match &mut self.form {
            Form::Pcap(pcap) => pcap.next(&mut self.input, &mut self.room),
            Form::Pcapng(pcapng) => pcapng.next(&mut self.input, &mut self.room),
        }
    }
}
