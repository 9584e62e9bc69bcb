//! Where in a capture a question is asked, and the asking.

use crate::cli::Failure;
use crate::programs;
use crate::timeline::answered::{self, End};
use crate::timeline::stretches::{Stretch, Thing};
use peer::capture::{Kind, Record, HEADER, RECORD_HEAD};
use peer::message::{CHANNEL_CC, CHANNEL_CV, CHANNEL_FAULT};

/// What `why` is asked about.
#[derive(Clone, Copy, Debug, PartialEq, Eq)]
pub enum Asked {
    HeldBack,
    Crossing,
    Loss,
}

impl Asked {
    /// What a stretch of the page is asked for; none for what the page is not about.
    pub fn of(thing: Thing) -> Option<Asked> {
        match thing {
            Thing::HeldBack => Some(Asked::HeldBack),
            Thing::Blocked => Some(Asked::Crossing),
            _ => None,
        }
    }

    pub fn word(self) -> &'static str {
        match self {
            Asked::HeldBack => "held-back",
            Asked::Crossing => "crossing",
            Asked::Loss => "loss",
        }
    }

    /// Whether a message of this channel may be the one that `why` names; the others need not be asked about.
    fn may_be_named(self, channel: Option<u16>) -> bool {
        match self {
            Asked::HeldBack => channel == Some(CHANNEL_FAULT),
            Asked::Crossing | Asked::Loss => matches!(channel, Some(CHANNEL_CC | CHANNEL_CV)),
        }
    }
}

/// Behind so many records, and with a tick at a reading behind them.
#[derive(Clone, Copy, Debug, PartialEq, Eq)]
pub struct Moment {
    pub records: usize,
    pub tick: Option<u64>,
}

/// The lines of an answer.
#[derive(Clone, Debug, PartialEq, Eq)]
pub struct Answer {
    pub lines: Vec<String>,
}

impl Answer {
    fn of(text: &[u8]) -> Answer {
        let text = String::from_utf8_lossy(text);
        // What `why` says of the capture itself the page says once.
        let lines = text.lines().filter(|line| !line.starts_with("capture:"));
        Answer {
            lines: lines.map(str::to_string).collect(),
        }
    }

    pub fn is_refused(&self) -> bool {
        self.lines
            .first()
            .is_some_and(|line| line.starts_with("refused"))
    }

    /// What stands behind a line's first word.
    pub fn behind(&self, start: &str) -> Option<&str> {
        self.lines.iter().find_map(|line| line.strip_prefix(start))
    }

    /// The record that `which:` names, its reading and its words.
    pub fn which(&self) -> Option<(u64, u64, &str)> {
        let (record, rest) = self.behind("which: record ")?.split_once(" at ")?;
        let (reading, words) = rest.split_once(", ")?;
        Some((record.parse().ok()?, reading.parse().ok()?, words))
    }
}

/// An accepted message of the label.
struct Message {
    /// Its number in the capture.
    number: usize,
    /// Its number in the copy, and where the copy ends behind it.
    in_copy: u64,
    end: usize,
    channel: Option<u16>,
}

/// A capture, and what is known of its records.
pub struct Questions<'a> {
    capture: &'a [u8],
    label: u32,
    /// Of each record where it ends, and the clock behind it.
    ends: Vec<usize>,
    clocks: Vec<u64>,
    /// The label's accepted records alone, before each a tick at the clock that it met.
    copy: Vec<u8>,
    messages: Vec<Message>,
    pub end: End,
}

impl<'a> Questions<'a> {
    pub fn of(capture: &'a [u8], label: u32) -> Result<Questions<'a>, Failure> {
        let end = End {
            records: 0,
            cut: false,
        };
        let copy = HEADER.to_vec();
        let mut questions = Questions {
            capture,
            label,
            ends: Vec::new(),
            clocks: Vec::new(),
            copy,
            messages: Vec::new(),
            end,
        };
        let mut copied = 0;
        questions.end = answered::each(capture, &mut |answered| {
            questions.take(&answered.record, answered.accepted(), &mut copied)
        })?;
        Ok(questions)
    }

    fn take(&mut self, record: &Record, accepted: bool, copied: &mut u64) {
        let before = self.clocks.last().copied().unwrap_or(0);
        let start = self.ends.last().copied().unwrap_or(HEADER.len());
        self.ends.push(start + RECORD_HEAD + record.body.len());
        let brings = accepted && record.kind.brings_reading();
        self.clocks.push(if brings { record.time } else { before });
        if brings && record.label == self.label && record.kind != Kind::Tick {
            tick_record(before).append_to(&mut self.copy);
            record.append_to(&mut self.copy);
            *copied += 2;
            self.note(record, *copied);
        }
    }

    fn note(&mut self, record: &Record, in_copy: u64) {
        if record.kind == Kind::Receive {
            let channel = record
                .body
                .get(2..4)
                .and_then(|two| two.try_into().ok())
                .map(u16::from_be_bytes);
            self.messages.push(Message {
                number: self.ends.len(),
                in_copy,
                end: self.copy.len(),
                channel,
            });
        }
    }

    /// The last reading that was accepted.
    pub fn last(&self) -> u64 {
        self.clocks.last().copied().unwrap_or(0)
    }

    /// The same moment without its tick, where the clock is there already: that is easier to ask again.
    fn plain(&self, moment: Moment) -> Moment {
        let clock = moment
            .records
            .checked_sub(1)
            .and_then(|last| self.clocks.get(last));
        match moment.tick {
            Some(tick) if clock == Some(&tick) => Moment {
                tick: None,
                ..moment
            },
            _ => moment,
        }
    }

    /// Asks `why` of the capture at a moment.
    pub fn ask(&self, asked: Asked, moment: Moment) -> Result<Answer, Failure> {
        let label = self.label.to_string();
        let words = [label.as_str(), asked.word()];
        let text = match moment.tick {
            None => {
                let upto = format!("upto={}", moment.records);
                programs::run("why", &[words[0], words[1], &upto], self.capture)?
            }
            Some(reading) => {
                let mut input = self
                    .capture
                    .get(..self.end_of(moment.records))
                    .unwrap_or_default()
                    .to_vec();
                tick_record(reading).append_to(&mut input);
                programs::run("why", &words, &input)?
            }
        };
        Ok(Answer::of(&text))
    }

    fn end_of(&self, records: usize) -> usize {
        match records.checked_sub(1) {
            None => HEADER.len(),
            Some(before) => self.ends.get(before).copied().unwrap_or(self.capture.len()),
        }
    }

    /// How many records stand before the clock comes to a reading.
    fn before(&self, reading: u64) -> usize {
        self.clocks.partition_point(|clock| *clock < reading)
    }

    /// Where a stretch may begin, the earlier first.
    pub fn begins(&self, stretch: &Stretch) -> Vec<Moment> {
        self.changes(stretch.begun_by, stretch.from)
    }

    /// Where it may have ended, the earlier first; nowhere if it stands at the end.
    pub fn ends(&self, stretch: &Stretch) -> Vec<Moment> {
        stretch
            .to
            .map_or_else(Vec::new, |to| self.changes(stretch.ended_by, to))
    }

    /// A change at a record may have come with its reading alone, before what the record asks for was done.
    fn changes(&self, record: Option<u64>, reading: u64) -> Vec<Moment> {
        match record.map(|record| usize::try_from(record).unwrap_or(usize::MAX)) {
            Some(record) => {
                let before = Moment {
                    records: record.saturating_sub(1),
                    tick: Some(reading),
                };
                vec![
                    before,
                    Moment {
                        records: record,
                        tick: None,
                    },
                ]
            }
            None => vec![Moment {
                records: self.before(reading),
                tick: Some(reading),
            }],
        }
    }

    /// Where it may have stood last, the later first: at the reading of the record that ended it, or one
    /// microsecond before it lapsed; at the end of the capture where it does not end.
    pub fn lasts(&self, stretch: &Stretch) -> Vec<Moment> {
        let Some(to) = stretch.to else {
            return vec![Moment {
                records: self.ends.len(),
                tick: None,
            }];
        };
        let records = match stretch.ended_by {
            Some(record) => usize::try_from(record.saturating_sub(1)).unwrap_or(usize::MAX),
            None => self.before(to),
        };
        [Some(to), to.checked_sub(1), None]
            .map(|tick| Moment { records, tick })
            .to_vec()
    }

    /// The first of these moments at which it stands, or does not, and the answer there.
    pub fn first(
        &self,
        asked: Asked,
        moments: Vec<Moment>,
        stands: bool,
    ) -> Result<Option<(Moment, Answer)>, Failure> {
        for moment in moments {
            let moment = self.plain(moment);
            let answer = self.ask(asked, moment)?;
            if answer.is_refused() != stands {
                return Ok(Some((moment, answer)));
            }
        }
        Ok(None)
    }

    /// Messages behind `first` records and within `last`, that may be named.
    pub fn candidates(&self, asked: Asked, first: usize, last: usize) -> Vec<usize> {
        let within = |message: &Message| message.number > first && message.number <= last;
        let places = self.messages.iter().enumerate();
        let wanted =
            places.filter(|(_, message)| within(message) && asked.may_be_named(message.channel));
        wanted.map(|(place, _)| place).collect()
    }

    /// The answer behind a message, if `why` names this very message there, and the message's number in the
    /// capture. It is asked of the copy, which is shorter.
    pub fn renewed(&self, asked: Asked, place: usize) -> Result<Option<(u64, Answer)>, Failure> {
        let Some(message) = self.messages.get(place) else {
            return Ok(None);
        };
        let input = self.copy.get(..message.end).unwrap_or_default();
        let answer = Answer::of(&programs::run(
            "why",
            &[&self.label.to_string(), asked.word()],
            input,
        )?);
        let named = answer
            .which()
            .is_some_and(|(record, _, _)| record == message.in_copy);
        Ok(named.then_some((message.number as u64, answer)))
    }
}

fn tick_record(reading: u64) -> Record<'static> {
    Record {
        time: reading,
        label: 0,
        kind: Kind::Tick,
        body: &[],
    }
}
