//! The readings at which something can change though no record comes: found from the dates of the
//! records alone. One too many costs a report of `watch` and no more; none may be missing.

use peer::capture::{Kind, Record};
use peer::message::{self, Bfd, Message};
use peer::session::{CONDITION_TIME_PER_SECOND, MISCONNECTIVITY_TIME, OWN_MULTIPLIER};
use peer::settings::Settings;
use std::cmp::Reverse;
use std::collections::{BinaryHeap, HashMap};

/// What the detection time of a label may be.
struct Detection {
    discriminator: u32,
    period: u32,
    /// The multiplier of the last CC, and that of the last which was meant for this session.
    last: u8,
    meant: u8,
}

/// Readings to ask at, the earliest first.
#[derive(Default)]
pub struct Dates {
    queue: BinaryHeap<Reverse<(u64, u32)>>,
    detections: HashMap<u32, Detection>,
}

impl Dates {
    /// The next reading to ask at that is not above `to`, and the label to ask of.
    pub fn due(&mut self, to: u64) -> Option<(u64, u32)> {
        let Reverse(first) = *self.queue.peek()?;
        if first.0 > to {
            return None;
        }
        while self.queue.peek() == Some(&Reverse(first)) {
            self.queue.pop();
        }
        Some(first)
    }

    /// Notes the readings that an accepted record may bring with it; nothing if its body cannot be
    /// read.
    pub fn note(&mut self, record: &Record) -> Option<()> {
        let (time, label) = (record.time, record.label);
        match record.kind {
            Kind::Open => self.open(time, &Settings::read(label, record.body)?),
            Kind::Unlock => self.detect(time, label),
            Kind::Receive => {
                let read = message::read(record.body).ok()?;
                self.receive(time, label, &read.message);
            }
            Kind::Close => {
                self.detections.remove(&label);
            }
            _ => {}
        }
        Some(())
    }

    fn open(&mut self, time: u64, settings: &Settings) {
        let detection = Detection {
            discriminator: settings.discriminator,
            period: settings.period,
            last: OWN_MULTIPLIER,
            meant: OWN_MULTIPLIER,
        };
        self.detections.insert(settings.label, detection);
        self.detect(time, settings.label);
    }

    fn receive(&mut self, time: u64, label: u32, message: &Message) {
        match message {
            Message::Fault(fault) => {
                let stands = CONDITION_TIME_PER_SECOND * u64::from(fault.refresh);
                self.push(time, stands, label);
            }
            Message::Cc(bfd) => {
                self.heard_multiplier(label, bfd);
                self.push(time, MISCONNECTIVITY_TIME, label);
                self.detect(time, label);
            }
            Message::Cv(..) => {
                self.push(time, MISCONNECTIVITY_TIME, label);
                self.detect(time, label);
            }
        }
    }

    /// A CC for another session leaves the multiplier as it was.
    fn heard_multiplier(&mut self, label: u32, bfd: &Bfd) {
        if let Some(detection) = self.detections.get_mut(&label) {
            detection.last = bfd.multiplier;
            if [0, detection.discriminator].contains(&bfd.your_discriminator) {
                detection.meant = bfd.multiplier;
            }
        }
    }

    /// A loss may begin one microsecond behind the detection time, by each multiplier that may hold.
    fn detect(&mut self, time: u64, label: u32) {
        let Some(detection) = self.detections.get(&label) else {
            return;
        };
        let period = u64::from(detection.period);
        let mut multipliers = [OWN_MULTIPLIER, detection.last, detection.meant];
        multipliers.sort_unstable();
        let mut before = 0;
        for multiplier in multipliers {
            if multiplier != before {
                self.push(time, period * u64::from(multiplier) + 1, label);
            }
            before = multiplier;
        }
    }

    fn push(&mut self, time: u64, behind: u64, label: u32) {
        self.queue
            .push(Reverse((time.saturating_add(behind), label)));
    }
}
