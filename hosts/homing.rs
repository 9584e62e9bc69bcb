//! hosts/homing.c again, in Rust: dual homing (RFC 8185) with four PEs in one process, each with a table of its own. The
//! host carries the octets, cuts and mends, is the operator and the AC redundancy, and sends what a PE has to say to its
//! peer; which PW is active and what is forwarded is the library's to say. hosts/run compares what is printed with
//! hosts/timeline-homing.
mod korvezul;

use korvezul::*;

/// Microseconds: the period of every session; between the first three DHC messages of a change, and between those behind
/// them (RFC 8185, 4.1).
const PERIOD: u64 = 10_000;
const RAPID: u64 = 3_300;
const AGAIN: u64 = 1_000_000;

/// Where a frame comes into a PE and goes out. The first two are pseudowires, with a session and a label each.
const PW: usize = 0;
const DNI: usize = 1;
const AC: usize = 2;
const PORTS: [&str; 3] = ["PW", "DNI-PW", "AC"];
const CES: [&str; 2] = ["CE1", "CE2"];
const ALL: std::ops::Range<usize> = 0..4;
const PE1: usize = 0;
const PE2: usize = 1;
const PE3: usize = 2;
const PE4: usize = 3;

/// What a PE puts into a DHC message: PW Status, Dual-Node Switching, or both.
#[derive(Clone, Copy, PartialEq)]
enum Tlvs {
    Both,
    Status,
    Switching,
}

struct Pe {
    name: &'static str,
    node: u32,
    group: u32,
    label: [u32; 2],
    role: u8,
    /// Who is at the other end of a pseudowire.
    far: [usize; 2],
    /// What it sends there is lost.
    cut: [bool; 2],
    table: Table,
    /// State, loss and RDI.
    seen: [[u8; 3]; 2],
    told: GroupReport,
    /// The far PE has asked for the protection PW.
    asked: bool,
    /// F and S as it says them, in what, how often it has, and when it does again.
    fail: u8,
    switches: u8,
    tlvs: Tlvs,
    said: u32,
    next: u64,
}

#[derive(Default)]
struct Way {
    text: String,
    reaches: bool,
    /// When it last ceased to.
    since: u64,
}

struct Site {
    pes: [Pe; 4],
    ways: [Way; 2],
    now: u64,
    period_due: u64,
    answers: [u32; 27],
    rows: [u32; 8],
    /// CCs and CVs, and DHC messages, that came and that were lost.
    carried: [u32; 2],
    dhc_carried: [u32; 2],
}

fn headline(text: &str) {
    println!("-- {text}");
}

fn octets(o: &[u8]) {
    println!("           {}", o.iter().map(|x| format!("{x:02x}")).collect::<String>());
}

/// What a PE forwards joins two of its ports; a frame that comes in by the third is dropped.
fn other_port(forwarding: u8, from: usize) -> Option<usize> {
    let joined = match forwarding {
        PW_WITH_AC => [PW, AC],
        PW_WITH_DNI => [PW, DNI],
        DNI_WITH_AC => [DNI, AC],
        _ => return None,
    };
    joined.contains(&from).then(|| if from == joined[0] { joined[1] } else { joined[0] })
}

/// The rows of Table 1, in their order.
const TABLE_1: [u8; 8] = [PW_WITH_AC, PW_WITH_DNI, DNI_WITH_AC, DROPS, PW_WITH_AC, DROPS, DROPS, DROPS];

impl Pe {
    fn new(i: usize) -> Pe {
        let number = i as u32 + 1;
        Pe {
            name: ["PE1", "PE2", "PE3", "PE4"][i],
            node: 0x0a000000 + number,
            group: if i < PE3 { 12 } else { 34 },
            label: [100 * number, 100 * number + 10],
            role: if i % 2 == 0 { WORKING } else { PROTECTION },
            far: [i ^ 2, i ^ 1],
            cut: [false; 2],
            table: Table::new(),
            seen: [[0; 3]; 2],
            told: GroupReport::default(),
            asked: false,
            fail: 0,
            switches: 0,
            tlvs: Tlvs::Both,
            said: 0,
            next: u64::MAX,
        }
    }
    fn dni_is_up(&self) -> bool {
        self.seen[DNI][0] == 3
    }
    fn state_name(&self, w: usize) -> &'static str {
        ["ADMIN DOWN", "DOWN", "INIT", "UP"][usize::from(self.seen[w][0])]
    }
}

/// The way of a frame, and what is told.
impl Site {
    fn new() -> Site {
        Site {
            pes: [PE1, PE2, PE3, PE4].map(Pe::new),
            ways: Default::default(),
            now: 0,
            period_due: 0,
            answers: [0; 27],
            rows: [0; 8],
            carried: [0; 2],
            dhc_carried: [0; 2],
        }
    }
    fn line(&self, text: std::fmt::Arguments) {
        println!("{:9} {text}", self.now);
    }
    /// Every answer is the one that is due, or the story ends there.
    fn due(&mut self, i: usize, call: &str, answer: u32, wanted: u32) {
        assert_eq!(answer, wanted, "at {} {} {call}", self.now, self.pes[i].name);
        self.answers[answer as usize] += 1;
    }
    /// A CE sends by the AC that is active. A cut is no PE's to see: what goes into it is lost, until a loss tells.
    fn walk(&self, ce: usize) -> (String, bool) {
        let mut text = CES[ce].to_string();
        let Some(mut i) = (2 * ce..2 * ce + 2).find(|i| self.pes[*i].told.ac == ACTIVE) else {
            return (text + ", no AC is active", false);
        };
        text += &format!(" -AC- {}", self.pes[i].name);
        let mut from = AC;
        while let Some(to) = other_port(self.pes[i].told.forwarding, from) {
            if to == AC {
                return (format!("{text} -AC- {}", CES[i / 2]), i / 2 != ce);
            }
            if self.pes[i].cut[to] {
                return (format!("{text} -{}- lost", PORTS[to]), false);
            }
            (i, from) = (self.pes[i].far[to], to);
            text += &format!(" -{}- {}", PORTS[to], self.pes[i].name);
        }
        (text + " drops it", false)
    }
    /// Where it has changed, and how long none got through.
    fn frames(&mut self) {
        for ce in 0..2 {
            let ((text, reaches), was) = (self.walk(ce), &self.ways[ce]);
            if text == was.text {
                continue;
            }
            let since = if was.reaches { self.now } else { was.since };
            if reaches && !was.reaches && self.now > was.since {
                self.line(format_args!("frame {text}, again after {} us", self.now - was.since));
            } else {
                self.line(format_args!("frame {text}"));
            }
            self.ways[ce] = Way { text, reaches, since };
        }
    }
    /// How all four stand: the rows of Table 1 that they are in, and the frames.
    fn picture(&mut self) {
        for i in ALL {
            let g = self.ask(i);
            let p = &self.pes[i];
            assert_eq!(g, p.told, "what {} was told", p.name);
            let [pw, ac] = [g.pw, g.ac].map(activity_name);
            let (name, role, dni) = (p.name, role_name(p.role), if p.dni_is_up() { "up" } else { "down" });
            let forwards = forwarding_name(g.forwarding);
            self.line(format_args!("{name} {role}: PW {pw}, AC {ac}, DNI-PW {dni}: {forwards}"));
        }
        for way in &self.ways {
            self.line(format_args!("frame {}", way.text));
        }
    }
}

/// Looking at a PE, and what it has to say to its peer.
impl Site {
    fn see(&mut self, i: usize, w: usize) {
        let p = &mut self.pes[i];
        let r = p.table.report(ours(p.label[w]));
        self.due(i, "report", r.answer, 0);
        assert_eq!([r.crossing, r.blocked, r.conditions], [0; 3]);
        let was = std::mem::replace(&mut self.pes[i].seen[w], [r.state, r.loss, r.rdi]);
        let p = &self.pes[i];
        if p.seen[w] != was {
            let (name, port, label, state) = (p.name, PORTS[w], p.label[w], p.state_name(w));
            self.line(format_args!("{name} {port} {label}: {state}, loss {}, RDI {}", r.loss, r.rdi));
        }
    }
    /// What is forwarded is held to Table 1.
    fn ask(&mut self, i: usize) -> GroupReport {
        let p = &mut self.pes[i];
        let GroupAnswer { answer, group } = p.table.ask_group(our_group(p.group));
        let marks = [!p.dni_is_up(), group.pw == STANDBY, group.ac == STANDBY];
        let row = marks.into_iter().fold(0, |row, mark| 2 * row + usize::from(mark));
        self.due(i, "ask", answer, 0);
        assert!(group.pw <= ACTIVE && group.ac <= ACTIVE, "PW or AC at {}", self.now);
        assert_eq!(group.forwarding, TABLE_1[row], "what is forwarded at {}", self.now);
        self.rows[row] += 1;
        group
    }
    /// Behind every accepted call of a PE. A PE has something to say when F or S has changed: F is a loss of its service
    /// PW, S is 1 where traffic is on the protection PW, as it knows it or is asked by the far PE.
    fn look(&mut self, i: usize) {
        self.see(i, PW);
        self.see(i, DNI);
        let told = self.ask(i);
        let was = std::mem::replace(&mut self.pes[i].told, told);
        if told != was {
            let Pe { name, group, .. } = self.pes[i];
            let ([pw, ac], forwards) = ([told.pw, told.ac].map(activity_name), forwarding_name(told.forwarding));
            self.line(format_args!("{name} group {group}: PW {pw}, AC {ac}, {forwards}"));
        }
        self.frames();
        let p = &mut self.pes[i];
        let used = told.pw == if p.role == WORKING { STANDBY } else { ACTIVE };
        let says = (p.seen[PW][1], u8::from(p.asked || used));
        if says != (p.fail, p.switches) {
            (p.fail, p.switches) = says;
            p.said = 0;
            self.say(i);
        }
    }
    fn look_anew(&mut self, i: usize) {
        self.pes[i].told.pw = u8::MAX;
        self.look(i);
    }
    fn tick(&mut self, i: usize) {
        let answer = self.pes[i].table.tick(self.now);
        self.due(i, "tick", answer, 0);
        self.look(i);
    }
    fn receive(&mut self, i: usize, w: usize, message: &[u8]) {
        let p = &mut self.pes[i];
        let answer = p.table.receive(ours(p.label[w]), message, self.now);
        self.due(i, "receive", answer, 0);
    }
    /// The PW ID of a DNI-PW is 1000 and its group's.
    fn message(&self, i: usize) -> Dhc {
        let p = &self.pes[i];
        let (destination, source, pw) = (self.pes[p.far[DNI]].node, p.node, 1000 + p.group);
        let (present, protection, degrade) = (1, p.role, 0);
        let mut dhc = Dhc { id: p.group, ..Dhc::default() };
        if p.tlvs != Tlvs::Switching {
            dhc.status = DhcStatus { destination, source, pw, present, protection, degrade, fail: p.fail };
        }
        if p.tlvs != Tlvs::Status {
            dhc.switching = DhcSwitching { destination, source, pw, present, switches: p.switches, protection };
        }
        dhc
    }
    fn tell_said(&self, i: usize, first: bool, gone: bool) {
        let Pe { name, fail, switches, tlvs, far, .. } = self.pes[i];
        let to = &self.pes[far[DNI]];
        let bits = match tlvs {
            Tlvs::Both => format!("F {fail}, S {switches}"),
            Tlvs::Status => format!("F {fail}"),
            Tlvs::Switching => format!("S {switches}"),
        };
        let (again, answer) = (if first { "" } else { ", again" }, if gone { "lost" } else { "0" });
        self.line(format_args!("{name} DHC to {} {}, {bits}{again}: {answer}", to.name, to.label[DNI]));
    }
    /// Whether a DHC message has moved the PW since the last look.
    fn moved(&mut self, i: usize) -> bool {
        let p = &mut self.pes[i];
        let a = p.table.ask_group(our_group(p.group));
        self.due(i, "ask", a.answer, 0);
        a.group.pw != self.pes[i].told.pw
    }
    /// Three times in a row, and then on and on. What is said again is told where it is lost or moves the peer. When to
    /// say it next is settled before the peer has its own say.
    fn say(&mut self, i: usize) {
        let now = self.now;
        let p = &mut self.pes[i];
        let mut m = match p.tlvs {
            Tlvs::Both => vec![0; DHC_OCTETS],
            Tlvs::Status => vec![0; 36],
            Tlvs::Switching => vec![0; 32],
        };
        let (to, gone, first) = (p.far[DNI], p.cut[DNI], p.said == 0);
        p.said += 1;
        p.next = now + if p.said < 3 { RAPID } else { AGAIN };
        let answer = write_dhc_message(&mut m, self.message(i));
        self.due(i, "write DHC", answer, 0);
        self.dhc_carried[usize::from(gone)] += 1;
        if !gone {
            self.receive(to, DNI, &m);
        }
        if first || gone || self.moved(to) {
            self.tell_said(i, first, gone);
        }
        if first {
            octets(&m);
        }
        if !gone {
            self.look(to);
        }
    }
}

/// The line between the PEs, and time.
impl Site {
    /// A CC, or a CV, whose reader says how many octets it has.
    fn written(&mut self, i: usize, w: usize, cv: bool) -> Vec<u8> {
        let p = &mut self.pes[i];
        let (circuit, mut m) = (ours(p.label[w]), vec![0; if cv { CV_OCTETS } else { 28 }]);
        if !cv {
            let answer = p.table.write_cc(circuit, &mut m);
            self.due(i, "write CC", answer, 0);
            return m;
        }
        let answer = p.table.write_cv(circuit, &mut m);
        self.due(i, "write CV", answer, 0);
        let read = read_cv(&m);
        self.due(i, "read CV", read.answer, 0);
        m.truncate(read.place as usize);
        m
    }
    fn pass(&mut self, i: usize, w: usize, cv: bool) {
        self.tick(i);
        let m = self.written(i, w, cv);
        let (to, gone) = (self.pes[i].far[w], self.pes[i].cut[w]);
        self.carried[usize::from(gone)] += 1;
        if !gone {
            self.receive(to, w, &m);
            self.look(to);
        }
    }
    fn exchange(&mut self, cv: bool) {
        for i in ALL {
            self.pass(i, PW, cv);
            self.pass(i, DNI, cv);
        }
    }
    /// Everything that is due up to a reading, and a look at every PE at that reading.
    fn run(&mut self, to: u64) {
        loop {
            let at = ALL.map(|i| self.pes[i].next).fold(self.period_due, u64::min);
            if at > to {
                break;
            }
            self.now = at;
            for i in ALL {
                if self.pes[i].next == at {
                    self.say(i);
                }
            }
            if self.period_due == at {
                self.period_due += PERIOD;
                self.exchange(false);
            }
        }
        self.now = to;
        ALL.for_each(|i| self.tick(i));
    }
    /// Cuts, or mends, what a PE sends on a pseudowire.
    fn cut(&mut self, i: usize, w: usize, is_cut: bool) {
        self.pes[i].cut[w] = is_cut;
        let (name, far, what) =
            (self.pes[i].name, self.pes[self.pes[i].far[w]].name, if is_cut { "cut" } else { "mended" });
        self.line(format_args!("{name} to {far}, {}: {what}", PORTS[w]));
        self.frames();
    }
    fn cut_both(&mut self, i: usize, w: usize, is_cut: bool) {
        self.cut(i, w, is_cut);
        self.cut(self.pes[i].far[w], w, is_cut);
    }
}

/// The operator's calls, each with how its group stands behind it, changed or not.
impl Site {
    /// An end of a pseudowire by its octets: Global_ID 7, the node, the number as AC_ID, and an AGI of type 1.
    fn pseudowire(&mut self, i: usize, number: u8) -> MepId {
        let head = [0, 2, 0, 18, 0, 0, 0, 7, 10, 0, 0, i as u8 + 1, 0, 0, 0, number, 1, 4];
        let read = read_mep_id(&[&head, b"twin".as_slice()].concat());
        self.due(i, "read MEP-ID", read.answer, 0);
        read.mep
    }
    /// A pseudowire has one number at both ends: the service PWs 13 and 24, the DNI-PWs 12 and 34.
    fn open(&mut self, i: usize, w: usize) {
        let far = self.pes[i].far[w];
        let number = 10 * (i.min(far) as u8 + 1) + i.max(far) as u8 + 1;
        let (own, expected) = (self.pseudowire(i, number), self.pseudowire(far, number));
        let (label, discriminator) = (self.pes[i].label[w], 10 * (i as u32 + 1) + 1 + w as u32);
        let settings = Settings { own, expected, label, discriminator, period: PERIOD as u32, ..Settings::default() };
        let answer = self.pes[i].table.open(opened_by_us(settings), self.now);
        self.due(i, "open", answer, 0);
        self.line(format_args!("{} open {label}, {} to {}: 0", self.pes[i].name, PORTS[w], self.pes[far].name));
    }
    fn group_settings(&self, i: usize) -> GroupSettings {
        let Pe { group, label: [service, dni], role, .. } = self.pes[i];
        GroupSettings { id: group, peer: self.pes[self.pes[i].far[DNI]].node, service, dni, role }
    }
    fn set_group(&mut self, i: usize) {
        let settings = self.group_settings(i);
        let answer = self.pes[i].table.set_group(grouped_by_us(settings), self.now);
        self.due(i, "set", answer, 0);
        let Pe { name, group, role, .. } = self.pes[i];
        self.line(format_args!("{name} set group {group}, {}: 0", role_name(role)));
        self.look_anew(i);
    }
    fn set_ac(&mut self, i: usize, ac: u8) {
        let p = &mut self.pes[i];
        let (name, answer) = (p.name, p.table.set_ac(AcOf { group: our_group(p.group), ac }, self.now));
        self.due(i, "AC", answer, 0);
        self.line(format_args!("{name} AC {}: 0", activity_name(ac)));
        self.look_anew(i);
    }
    fn give_back(&mut self, i: usize) {
        let p = &mut self.pes[i];
        let (name, group, answer) = (p.name, p.group, p.table.return_group(our_group(p.group), self.now));
        p.asked = false;
        self.due(i, "return", answer, 0);
        self.line(format_args!("{name} return {group}: 0"));
        self.look_anew(i);
    }
    /// At one reading, so that none is told S 1 by another that has not returned yet.
    fn all_return(&mut self) {
        ALL.for_each(|i| self.give_back(i));
    }
}

/// What is refused: neither row nor head has changed, the clock among them.
impl Site {
    fn refused(&mut self, i: usize, what: &str, wanted: u32, call: impl FnOnce(&mut Table, u64) -> u32) {
        let kept = self.pes[i].table.clone();
        let answer = call(&mut self.pes[i].table, self.now);
        self.due(i, what, answer, wanted);
        assert!(self.pes[i].table == kept, "{what}");
        self.line(format_args!("{} {what}: {answer}, {}", self.pes[i].name, answer_name(answer)));
    }
    fn refused_group(&mut self, what: &str, wanted: u32, group: Grouping) {
        self.refused(PE1, what, wanted, |table, now| table.set_group(group, now));
    }
    fn refused_ask(&mut self, what: &str, name: GroupName) {
        self.refused(PE2, what, 24, |table, _| {
            let a = table.ask_group(name);
            assert_eq!(a.group, GroupReport::default());
            a.answer
        });
    }
    fn refused_groups(&mut self) {
        let good = self.group_settings(PE1);
        let GroupSettings { service, dni, .. } = good;
        let one_label = GroupSettings { dni: service, ..good };
        self.refused_group("set, one label for both", 10, grouped_by_us(one_label));
        self.refused_group("set, by the other party", 2, grouped_by_them(good));
        self.set_group(PE1);
        let second = GroupSettings { id: 13, ..good };
        self.refused_group("set, a second group of the PW", 11, grouped_by_us(second));
        let second = GroupSettings { service: dni, dni: service, ..good };
        self.refused_group("set, a second group of the ID", 11, grouped_by_us(second));
    }
    fn refused_calls(&mut self) {
        let (own, none, ac) = (our_group(12), our_group(34), 1);
        let of = |group| AcOf { group, ac };
        self.refused(PE2, "AC, a reading gone by", 1, |table, now| table.set_ac(of(own), now - 1));
        self.refused(PE2, "return, a reading gone by", 1, |table, now| table.return_group(own, now - 1));
        self.refused(PE2, "AC of 34", 24, |table, now| table.set_ac(of(none), now));
        self.refused(PE2, "return 34", 24, |table, now| table.return_group(none, now));
        self.refused_ask("ask 34", none);
        self.refused_ask("ask 12, by the other party", their_group(12));
    }
    /// What would make PE2's PW active, but for what is wrong with it: a field, the label, an octet too few, or the
    /// length of PW Status.
    fn wrong(&mut self, what: &str, wanted: u32, mut dhc: Dhc, label: u32, n: usize, length: u8) {
        let mut m = [0; DHC_OCTETS];
        (dhc.status.fail, dhc.switching.switches) = (1, 1);
        let answer = write_dhc_message(&mut m, dhc);
        self.due(PE1, "write DHC", answer, 0);
        m[15] = length;
        self.refused(PE2, what, wanted, |table, now| table.receive(ours(label), &m[..n], now));
    }
    fn refused_messages(&mut self) {
        let (good, n) = (self.message(PE1), DHC_OCTETS);
        let [pw, dni] = self.pes[PE2].label;
        let mut other = good;
        other.id = 34;
        self.wrong("DHC of group 34", 24, other, dni, n, 20);
        other = good;
        (other.status.source, other.switching.source) = (self.pes[PE3].node, self.pes[PE3].node);
        self.wrong("DHC from PE3", 24, other, dni, n, 20);
        other.status.source = good.status.source;
        self.wrong("DHC, Switching from PE3", 24, other, dni, n, 20);
        self.wrong("DHC on the service PW", 24, good, pw, n, 20);
        self.wrong("DHC on 999", 2, good, 999, n, 20);
        self.wrong("DHC, an octet short", 3, good, dni, n - 1, 20);
        self.wrong("DHC, PW Status of 19 octets", 25, good, dni, n, 19);
    }
}

/// The story.
impl Site {
    fn set_up(&mut self) {
        headline("four tables, a session for each end of each PW, a group at each PE; no AC is active at first");
        for i in ALL {
            let answer = self.pes[i].table.empty();
            self.due(i, "empty", answer, 0);
        }
        let early = self.group_settings(PE1);
        self.refused_group("set, no session open", 2, grouped_by_us(early));
        for i in ALL {
            self.open(i, PW);
            self.open(i, DNI);
        }
        self.refused_groups();
        [PE2, PE3, PE4].into_iter().for_each(|i| self.set_group(i));
        headline("the ACs of the working PEs become active; their PWs are, so that no DNI-PW is needed");
        self.set_ac(PE1, ACTIVE);
        self.set_ac(PE3, ACTIVE);
        headline("CCs both ways on every PW, each 10 ms: all come up");
        self.run(20_000);
        headline("CVs both ways: each end is the one expected");
        self.now = 25_000;
        self.exchange(true);
        self.picture();
    }
    fn refusals(&mut self) {
        headline("what is refused, with row and head as they were");
        self.run(30_000);
        self.refused_calls();
        self.refused_messages();
    }
    fn switchover(&mut self) {
        headline("the working PW is cut behind the CCs of 50000: no loss at 3 periods");
        self.run(50_000);
        self.cut_both(PE1, PW, true);
        self.run(80_000);
        self.picture();
        headline("a loss one microsecond later: the working PEs give the PW up and say so, and the others take over");
        self.run(80_001);
        headline("said twice more, which moves nobody");
        self.run(90_000);
        self.picture();
        headline("a return while the loss stands: PE1's PW stays standby");
        self.give_back(PE1);
    }
    fn ac_fails(&mut self) {
        headline("the AC of PE1 fails as well: PE2's takes over, and no PW moves");
        self.run(110_000);
        self.set_ac(PE1, STANDBY);
        self.set_ac(PE2, ACTIVE);
        self.picture();
    }
    fn mended(&mut self) {
        headline("the working PW is mended: its sessions come up, F is 0 again, and nothing comes back by itself");
        self.run(120_000);
        self.cut_both(PE1, PW, false);
        self.run(150_000);
        self.picture();
    }
    /// What the protection PEs said last was S 1, and they say it on and on.
    fn half_a_return(&mut self) {
        headline("half a return, of the working PEs alone: the two sides no longer meet");
        self.run(200_000);
        self.give_back(PE1);
        self.give_back(PE3);
        self.run(210_000);
        self.picture();
        headline("the protection PEs say S 1 again when their second is over: it is taken back");
        self.run(1_095_000);
    }
    fn returned(&mut self) {
        headline("the operator returns all four: the working PW again, and by the DNI-PW to the AC of PE2");
        self.run(1_100_000);
        self.all_return();
        self.run(1_110_000);
        self.picture();
    }
    fn dni_is_cut(&mut self) {
        headline("the DNI-PW of PE1 and PE2 is cut, which this traffic needs");
        self.run(1_200_000);
        self.cut_both(PE1, DNI, true);
        self.run(1_230_000);
        headline("it is down: only a PE with PW and AC both active forwards");
        self.run(1_230_001);
        self.picture();
        headline("the AC of PE1 is back, and PE1 does without the DNI-PW");
        self.run(1_240_000);
        self.set_ac(PE2, STANDBY);
        self.set_ac(PE1, ACTIVE);
    }
    fn twice_cut(&mut self) {
        headline("the working PW is cut too: what PE1 says does not reach PE2");
        self.run(1_250_000);
        self.cut_both(PE1, PW, true);
        self.run(1_280_001);
        self.run(1_290_000);
        self.picture();
        headline("the DNI-PW is mended, one way first: INIT is not up");
        self.run(1_300_000);
        self.cut(PE2, DNI, false);
        self.run(1_310_000);
        self.cut(PE1, DNI, false);
        self.run(1_320_000);
        headline("PE1 says it again when its second is over");
        self.run(2_290_000);
        headline("the working PW is mended, and all four return: traffic as at first");
        self.run(2_300_000);
        self.cut_both(PE1, PW, false);
        self.run(2_330_000);
        self.all_return();
        self.run(2_340_000);
        self.picture();
    }
    /// Where PE1 cannot see the failure S comes to it from PE2 (RFC 8185, 4.2). What the protection PEs send each other is
    /// a message of RFC 6378, and the host's. F alone is enough for a protection PE, and S alone for a working one.
    fn one_way(&mut self) {
        headline("what PE1 sends to PE3 is lost: PE3 has a loss; PE1 hears of it, has none and keeps the PW");
        self.run(2_400_000);
        (self.pes[PE2].tlvs, self.pes[PE3].tlvs) = (Tlvs::Switching, Tlvs::Status);
        self.cut(PE1, PW, true);
        self.run(2_430_001);
        self.run(2_440_000);
        self.picture();
        headline("asked over the protection PW, PE2 tells PE1, which gives the PW up and says so");
        self.line(format_args!("PE4 asks PE2 for the protection PW"));
        self.pes[PE2].asked = true;
        self.look(PE2);
        self.run(2_450_000);
        (self.pes[PE2].tlvs, self.pes[PE3].tlvs) = (Tlvs::Both, Tlvs::Both);
    }
    /// No loss of its own moves a protection PE, and no F a working one.
    fn protection_cut(&mut self) {
        headline("the protection PW is cut as well: its PEs stay active, for only a return makes them standby");
        self.cut_both(PE2, PW, true);
        self.run(2_480_001);
        self.picture();
        headline("all is mended, and all four return: traffic as at first");
        self.run(2_490_000);
        self.cut(PE1, PW, false);
        self.cut_both(PE2, PW, false);
        self.run(2_520_000);
        self.all_return();
        self.run(2_530_000);
        self.picture();
        headline("the protection PW is cut once more: nobody moves");
        self.run(2_600_000);
        self.cut_both(PE2, PW, true);
        self.run(2_630_001);
        self.picture();
    }
    /// The end of the story: a look asks of every group.
    fn closed(&mut self) {
        headline("the service PW of PE2 is closed: its group ends with it, and with that who a message is for");
        let [pw, dni] = self.pes[PE2].label;
        let answer = self.pes[PE2].table.close(ours(pw), self.now);
        self.due(PE2, "close", answer, 0);
        self.line(format_args!("PE2 close {pw}: 0"));
        self.refused_ask("ask 12", our_group(12));
        self.wrong("DHC from PE1", 24, self.message(PE1), dni, DHC_OCTETS, 20);
    }
    fn count(&self) {
        headline("in numbers");
        println!("CCs and CVs: {} came, {} were lost", self.carried[0], self.carried[1]);
        println!("DHC messages: {} came, {} were lost", self.dhc_carried[0], self.dhc_carried[1]);
        let told = self.answers.iter().enumerate().filter(|(_, times)| **times > 0);
        println!("answered{}", told.map(|(n, times)| format!(" {n} x{times}")).collect::<String>());
        assert!(self.rows.iter().all(|times| *times > 0), "a row of Table 1 that nothing was in");
        let rows = (1..).zip(self.rows).map(|(n, times)| format!(" {n} x{times}"));
        println!("asked in the rows of Table 1{}", rows.collect::<String>());
    }
}

fn main() {
    assert_eq!(unsafe { korvezul_version() }, VERSION);
    let mut site = Site::new();
    site.set_up();
    site.refusals();
    site.switchover();
    site.ac_fails();
    site.mended();
    site.half_a_return();
    site.returned();
    site.dni_is_cut();
    site.twice_cut();
    site.one_way();
    site.protection_cut();
    site.closed();
    site.count();
}
