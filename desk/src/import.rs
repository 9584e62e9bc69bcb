//! `desk import`: a tap and a sessions file to a capture.

mod counts;
mod words;

use crate::cli::{self, Done, Failure, Progress, Words};
use crate::sessions::{self, Session};
use crate::tap::frame::{self, Channel};
use crate::tap::input::octets_at;
use crate::tap::{Packet, Tap, ETHERNET, MICROSECONDS};
pub use counts::Counts;
use peer::capture::{Kind, Record, HEADER, LONGEST_BODY};
use std::fs::File;
use std::io::{BufReader, BufWriter, Read, Write};
use std::path::Path;

const HELP: &str =
    "usage: desk import TAP SESSIONS [--start TIME] [--from ADDRESS] [--section LABEL] > capture

Makes a capture of a tap: a pcap (both byte orders, microseconds or nanoseconds) or a pcapng of
Ethernet frames, with or without VLAN tags. SESSIONS is a sessions file (desk/README.md).

Each session is opened at its reading. Each MPLS-TP OAM frame on the label of a session is a
receive, in the order of the tap: behind the GAL (13) the label above it is meant, else the label
at the bottom of the stack with an associated channel (first nibble 1) behind it. The body is what
the frame brought from the channel header on; a padding of the link stays behind the message. A
tick at the last packet's reading ends the capture, so that silence at the end of the tap shows.

  --start TIME     what reading 0 means: seconds since 1970 (1,700,000,000.25) or UTC
                   (2026-11-16T05:40:00Z). Without it the second of the first packet; messages
                   before the start are left out.
  --from ADDRESS   the far end's Ethernet address (02:00:00:00:00:01): frames from others are passed
                   over. Of use where the tap has both directions of a link, since a label may
                   stand for one circuit this way and for another that way.
  --section LABEL  the label that the Section of the tapped link has in the sessions file. On the
                   wire it has none: its frames have the GAL alone. Without the option, if one
                   session alone has the MEP-IDs of a Section, its label.

Other frames, and messages on labels of no session, are counted on standard error.
";

/// Room for reading and writing: few calls of the system.
const ROOM: usize = 256 * 1024;
/// Where the sender's address stands in a frame.
const SENDER: usize = 6;

/// What to make of a tap.
pub struct Plan {
    /// In the order of their readings.
    sessions: Vec<Session>,
    /// In rising order.
    labels: Vec<u32>,
    section: Option<u32>,
    start: Option<i128>,
    from: Option<[u8; 6]>,
}

impl Plan {
    /// Messages on the labels of these sessions, with reading 0 at `start` (microseconds since 1970).
    pub fn new(mut sessions: Vec<Session>, section: Option<u32>, start: Option<i128>) -> Plan {
        // Equal readings stay in the order of the file.
        sessions.sort_by_key(|session| session.opened);
        let mut labels: Vec<u32> = sessions.iter().map(|session| session.label).collect();
        labels.sort_unstable();
        Plan {
            sessions,
            labels,
            section,
            start,
            from: None,
        }
    }

    /// The same with messages from one Ethernet address alone.
    pub fn from(mut self, address: Option<[u8; 6]>) -> Plan {
        self.from = address;
        self
    }
}

pub fn run(words: &[String]) -> Done {
    let words = Words::of(words, &["--start", "--from", "--section"], &[])?;
    if words.has("--help") {
        return cli::say(HELP);
    }
    let [tap, file] = words.plain(["TAP", "SESSIONS"])?;
    let start = words.value("--start").map(words::start).transpose()?;
    let from = words.value("--from").map(words::address).transpose()?;
    let sessions = sessions::read(Path::new(file))?;
    let section = words::section(words.value("--section"), &sessions)?;
    let opened =
        File::open(tap).map_err(|error| Failure::new(format!("cannot read {tap}: {error}")))?;
    let length = opened.metadata().map_or(0, |about| about.len());
    let output = BufWriter::with_capacity(ROOM, std::io::stdout().lock());
    let mut import = Import::new(Plan::new(sessions, section, start).from(from), output);
    let mut progress = Progress::start("import", length);
    let done = import.all(tap, BufReader::with_capacity(ROOM, opened), |offset| {
        progress.at(offset)
    });
    drop(progress);
    eprint!("{}", import.counts);
    done
}

/// A capture in the making.
pub struct Import<W> {
    plan: Plan,
    output: W,
    /// How many of the plan's sessions were opened.
    opened: usize,
    /// The highest reading that was written, and the highest of the tap.
    highest: u64,
    last: u64,
    room: Vec<u8>,
    pub counts: Counts,
}

impl<W: Write> Import<W> {
    pub fn new(plan: Plan, output: W) -> Import<W> {
        Import {
            plan,
            output,
            opened: 0,
            highest: 0,
            last: 0,
            room: Vec::new(),
            counts: Counts::default(),
        }
    }

    /// Makes the capture of a whole tap. What stands before a damage is written.
    pub fn all(&mut self, name: &str, tap: impl Read, mut at: impl FnMut(u64)) -> Done {
        self.output.write_all(&HEADER)?;
        let read = self.packets(name, tap, &mut at);
        let ended = self.end();
        read.and(ended)
    }

    fn packets(&mut self, name: &str, tap: impl Read, at: &mut impl FnMut(u64)) -> Done {
        let mut tap = Tap::start(tap).map_err(|damage| damage.of_file(name))?;
        loop {
            at(tap.offset());
            match tap.next_packet().map_err(|damage| damage.of_file(name))? {
                Some(packet) => self.packet(name, &packet)?,
                None => return Ok(()),
            }
        }
    }

    fn packet(&mut self, name: &str, packet: &Packet) -> Done {
        self.counts.packets += 1;
        let reading = self.reading(name, packet)?;
        self.last = self.last.max(reading.unwrap_or(0));
        if packet.link != ETHERNET {
            self.counts.not_ethernet += 1;
            return Ok(());
        }
        match frame::message(packet.frame) {
            Err(other) => self.counts.pass_over(other),
            Ok(_) if !self.is_from_far_end(packet.frame) => self.counts.other_sender += 1,
            Ok((channel, body)) => {
                if let Some(label) = self.label(channel) {
                    self.counts.cut += u64::from(packet.cut);
                    return self.message(packet, reading, label, body);
                }
            }
        }
        Ok(())
    }

    fn is_from_far_end(&self, frame: &[u8]) -> bool {
        let from = self.plan.from;
        from.is_none() || from == octets_at(frame, SENDER)
    }

    /// The reading of a packet; none if it has no time, or one before the start.
    fn reading(&mut self, name: &str, packet: &Packet) -> Result<Option<u64>, Failure> {
        let Some(micros) = packet.time else {
            return Ok(None);
        };
        let start = *self
            .plan
            .start
            .get_or_insert(micros - micros.rem_euclid(MICROSECONDS));
        self.counts.start = Some(start);
        match micros - start {
            ..=-1 => Ok(None),
            reading => u64::try_from(reading).map(Some).map_err(|_| {
                let offset = packet.offset;
                Failure::new(format!(
                    "{name}: offset {offset}: a time that no capture can say"
                ))
            }),
        }
    }

    /// The label of a channel, if a session has it.
    fn label(&mut self, channel: Channel) -> Option<u32> {
        match (channel, self.plan.section) {
            (Channel::Section, None) => self.counts.sections += 1,
            (Channel::Section, section) => return section,
            (Channel::Label(label), _) => {
                if self.plan.labels.binary_search(&label).is_ok() {
                    return Some(label);
                }
                let count = self.counts.unknown.entry(label).or_insert(0);
                *count += 1;
            }
        }
        None
    }

    fn message(&mut self, packet: &Packet, reading: Option<u64>, label: u32, body: &[u8]) -> Done {
        let Some(time) = reading else {
            match packet.time {
                None => self.counts.undated += 1,
                Some(_) => self.counts.early += 1,
            }
            return Ok(());
        };
        if body.len() > LONGEST_BODY {
            self.counts.long += 1;
            return Ok(());
        }
        self.open_upto(time)?;
        self.counts.receives += 1;
        self.counts.back += u64::from(time < self.highest);
        self.write(Record {
            time,
            label,
            kind: Kind::Receive,
            body,
        })
    }

    /// Opens the sessions that are to be opened at a reading or before it.
    fn open_upto(&mut self, reading: u64) -> Done {
        while let Some(session) = self
            .plan
            .sessions
            .get(self.opened)
            .filter(|session| session.opened <= reading)
        {
            let body = sessions::open_body(session);
            let (time, label) = (session.opened, session.label);
            self.opened += 1;
            self.counts.opens += 1;
            self.write(Record {
                time,
                label,
                kind: Kind::Open,
                body: &body,
            })?;
        }
        Ok(())
    }

    /// Brings the clock to the last packet, and opens what is to be opened later.
    fn end(&mut self) -> Done {
        let time = self.last;
        self.open_upto(time)?;
        if time > self.highest {
            self.write(Record {
                time,
                label: 0,
                kind: Kind::Tick,
                body: &[],
            })?;
        }
        self.open_upto(u64::MAX)?;
        self.output.flush()?;
        Ok(())
    }

    fn write(&mut self, record: Record) -> Done {
        self.highest = self.highest.max(record.time);
        self.room.clear();
        record.append_to(&mut self.room);
        self.output.write_all(&self.room)?;
        Ok(())
    }
}
