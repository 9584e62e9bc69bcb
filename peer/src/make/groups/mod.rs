//! Lists of calls on groups from a seed, each call with its answer: random, but
//! steered towards every line of the PW's table and the edges of loss and crossing.

mod acts;
mod sequences;
mod spoils;

use crate::assemble::{grouped, Mistake};
use crate::dhc;
use crate::edges;
use crate::group::Group;
use crate::list::{done, line_of, text};
use crate::party::Party;
use crate::random::Random;
use crate::session::Session;
use crate::table::{Table, LARGEST_READING};

/// What happens in a list, each with its weight. All take the reading that they
/// bring, or start at.
const SCENARIOS: [(Scenario, u64); 22] = [
    (GroupMaker::tick, 6),
    (GroupMaker::open, 6),
    (GroupMaker::close, 2),
    (GroupMaker::lock, 3),
    (GroupMaker::unlock, 6),
    (GroupMaker::hear, 10),
    (GroupMaker::hear_all, 12),
    (GroupMaker::verify, 3),
    (GroupMaker::cross, 4),
    (GroupMaker::send_fault, 3),
    (GroupMaker::set, 10),
    (GroupMaker::set_oddly, 4),
    (GroupMaker::set_ac, 7),
    (GroupMaker::give_back, 7),
    (GroupMaker::coordinate, 14),
    (GroupMaker::coordinate_wrongly, 8),
    (GroupMaker::observe, 3),
    (GroupMaker::lose, 8),
    (GroupMaker::return_under_crossing, 4),
    (GroupMaker::reopen_dni_pw, 2),
    (GroupMaker::reopen_service_pw, 2),
    (GroupMaker::spoil, 1),
];
/// The first of them bring their reading and no other.
const AT_ONE_READING: usize = 16;

type Scenario = fn(&mut GroupMaker, u64);

/// Makes one list. It keeps a table of its own beside it, so that it knows where
/// each group stands and can aim at the edges.
struct GroupMaker {
    random: Random,
    table: Table,
    /// The labels of both parties that the list mostly speaks of.
    labels: Vec<u32>,
    text: String,
    calls: u64,
    /// The first line that could not be read.
    mistake: Option<Mistake>,
}

/// The list for a seed, with so many calls.
pub(super) fn list(seed: u64, calls: u64) -> Result<String, Mistake> {
    let mut maker = GroupMaker::new(seed);
    maker.start();
    while maker.calls < calls && maker.mistake.is_none() {
        let time = maker.reading();
        maker.go_on(time, &SCENARIOS);
        maker.ask_some();
    }
    maker.cut_to(calls);
    match maker.mistake {
        Some(mistake) => Err(mistake),
        None => Ok(maker.text),
    }
}

impl GroupMaker {
    fn new(seed: u64) -> GroupMaker {
        let mut random = Random::new(seed);
        let ours = random.pick(&[100, 100, 16, 499_996]);
        let theirs = random.pick(&[600_000, 600_000, 500_000, 1_048_572]);
        let mut labels = Vec::new();
        for number in 0..4 {
            labels.extend([ours + number, theirs + number]);
        }
        GroupMaker {
            random,
            table: Table::new(),
            labels,
            text: String::new(),
            calls: 0,
            mistake: None,
        }
    }

    /// Opens most labels; at times the clock is near the largest reading then.
    fn start(&mut self) {
        if self.random.chance(5) {
            let distance = self.random.below(80_000_000);
            self.tick(LARGEST_READING - distance);
        }
        let time = self.table.clock();
        for label in self.labels.clone() {
            if self.random.chance(85) {
                self.open_label(time, label);
            }
        }
        self.hear_all(time);
    }

    /// Goes on with one of some scenarios, by their weights.
    fn go_on(&mut self, time: u64, scenarios: &[(Scenario, u64)]) {
        let total = scenarios.iter().map(|(_, weight)| weight).sum();
        let mut left = self.random.below(total);
        for (scenario, weight) in scenarios {
            if left < *weight {
                return scenario(self, time);
            }
            left -= weight;
        }
    }

    /// Brings this reading by a call of any kind.
    fn bring(&mut self, time: u64) {
        self.go_on(time, &SCENARIOS[..AT_ONE_READING]);
    }

    /// Appends a call with what the maker's own table answers.
    fn call(&mut self, time: u64, label: u32, words: &str) {
        let line = format!("{:>9}  {label:>7}  {words}", grouped(time));
        self.append(&line, "");
    }

    /// The same for one without a label.
    fn call_on_group(&mut self, time: u64, words: &str) {
        let line = format!("{:>9}  {:>7}  {words}", grouped(time), "-");
        self.append(&line, "");
    }

    fn receive(&mut self, time: u64, label: u32, words: &str) {
        self.call(time, label, &format!("receive {words}"));
    }

    /// Appends a message by its octets, with a remark that says what it is.
    fn receive_octets(&mut self, time: u64, label: u32, words: &str, octets: &[u8]) {
        let hex: String = octets.iter().map(|octet| format!("{octet:02x}")).collect();
        let time = grouped(time);
        let line = format!("{time:>9}  {label:>7}  receive{words} hex {hex}");
        self.append(&line, &remark(octets));
    }

    /// Asks a group; a party that is not named is ours.
    fn ask(&mut self, party: Party, id: u32) {
        let line = format!("{:>9}  {:>7}  ask id={id}{}", "-", "-", named(party));
        self.append(&line, "");
    }

    fn append(&mut self, line: &str, remark: &str) {
        let played = line_of(line).and_then(|read| done(&mut self.table, &read));
        match played {
            Ok(answer) => {
                self.text += line;
                if let Some(answer) = answer {
                    self.calls += 1;
                    self.text += &format!("  => {}", text(&answer));
                }
                self.text += remark;
                self.text += "\n";
            }
            Err(mistake) => {
                self.mistake
                    .get_or_insert_with(|| format!("{line}: {mistake}"));
            }
        }
    }

    /// Leaves so many calls: the last scenario may have made more.
    fn cut_to(&mut self, calls: u64) {
        let mut left = calls;
        let is_call = |line: &&str| line.contains("=>");
        let mut kept = String::new();
        for line in self.text.lines() {
            if is_call(&line) {
                if left == 0 {
                    break;
                }
                left -= 1;
            }
            kept += line;
            kept += "\n";
        }
        self.text = kept;
    }

    /// Asks each group now and then, and seldom one that is not there.
    fn ask_some(&mut self) {
        for (label, group) in self.groups() {
            if self.random.chance(30) {
                self.ask(Party::of(label), group.id);
            }
        }
        if self.random.chance(5) {
            let party = Party(self.random.pick(&[0, 1, 2]));
            let id = self.any_id();
            self.ask(party, id);
        }
    }

    /// The groups, each with the label of its service PW.
    fn groups(&self) -> Vec<(u32, Group)> {
        let sessions = self.table.sessions();
        let with_group = sessions.filter(|session| session.group.is_there());
        with_group
            .map(|session| (session.settings.label, session.group))
            .collect()
    }

    fn pick_group(&mut self) -> Option<(u32, Group)> {
        let groups = self.groups();
        (!groups.is_empty()).then(|| self.random.pick(&groups))
    }

    fn session(&self, label: u32) -> Option<&Session> {
        self.table.session(label)
    }

    fn pick_label(&mut self) -> u32 {
        self.random.pick(&self.labels)
    }

    /// A label of the list, rather the service PW of a group.
    fn pick_service(&mut self) -> u32 {
        let any = self.pick_label();
        match self.pick_group() {
            Some((label, _)) if self.random.chance(60) => label,
            _ => any,
        }
    }

    fn any_id(&mut self) -> u32 {
        self.random.pick(&[1, 2, 3, 4, 7, 0, u32::MAX])
    }

    /// The clock again, a little later, at an edge, much later or out of range.
    fn reading(&mut self) -> u64 {
        let clock = self.table.clock();
        match self.random.below(100) {
            0..=34 => clock,
            35..=59 => clock + self.random.below(400_000),
            60..=84 => self.edge(),
            85..=91 => clock + self.random.below(4_000_000),
            92..=96 => clock.saturating_sub(self.random.between(1, 5)),
            97 => LARGEST_READING + self.random.between(1, 2),
            _ => clock + 1,
        }
    }

    /// At, one before or one after an edge of a session that is still to come.
    fn edge(&mut self) -> u64 {
        let clock = self.table.clock();
        let all = self.table.sessions().flat_map(edges::of);
        let coming = all.map(|(_, edge)| edge).filter(|edge| *edge >= clock);
        let coming: Vec<u64> = coming.collect();
        match coming.is_empty() {
            true => clock,
            false => (self.random.pick(&coming) + self.random.below(3))
                .saturating_sub(1)
                .max(clock),
        }
    }
}

/// The word for a party that a call on a group names.
fn named(party: Party) -> String {
    match party {
        Party::OURS => String::new(),
        Party(number) => format!(" party={number}"),
    }
}

/// What a DHC message says of itself.
fn remark(octets: &[u8]) -> String {
    let Ok(read) = dhc::read(octets) else {
        return "    # DHC".to_string();
    };
    let mut text = format!("    # DHC, group {}", read.group);
    if let Some(status) = read.status {
        let fail = if status.fail { " F" } else { "" };
        text += &format!(", Status from {}{fail}", status.ends.source);
    }
    if let Some(switching) = read.switching {
        let switch = if switching.switch { " S" } else { "" };
        text += &format!(", Switching from {}{switch}", switching.ends.source);
    }
    text
}
