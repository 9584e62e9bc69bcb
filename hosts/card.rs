//! A host of the library in Rust, with the same story as `card.c`, the same timeline and the same two
//! logs (`card LOG-A LOG-B`). The calls behind `Table` (`korvezul.rs`) are what a card would keep.
mod korvezul;

use korvezul::*;

/// What an end did since its table was made empty, and the labels of the open sessions that are not in it: a
/// record has no room for the settings of a pseudowire or of an independent session. To every other label an
/// accepted call on such a one is what a tick is.
struct Log {
    octets: Vec<u8>,
    beside: Vec<u32>,
}

impl Log {
    fn new() -> Log {
        let mut octets = vec![0; LOG_HEADER_OCTETS];
        assert_eq!(log_header(&mut octets), 0);
        Log { octets, beside: Vec::new() }
    }
    fn record(&mut self, what: Logged, message: &[u8]) {
        let at = self.octets.len();
        self.octets.resize(at + LOG_CALL_OCTETS + message.len(), 0);
        assert_eq!(log_call(&mut self.octets[at..], what, message), 0);
    }
    fn record_tick(&mut self, time: u64) {
        self.record(Logged { time, kind: TICK, ..Logged::default() }, &[]);
    }
    /// A call with its message and its answer. What 13 and 26 are about, a buffer and a row, is in no record.
    fn call(&mut self, what: Logged, message: &[u8]) {
        if what.answer == 13 || what.answer == 26 {
            return;
        }
        if !self.beside.contains(&what.label) {
            self.record(what, message);
        } else if what.answer == 0 && what.kind <= RECEIVE {
            self.record_tick(what.time);
            self.beside.retain(|label| what.kind != CLOSE || *label != what.label);
        }
    }
    /// An open. One that is refused may be so for a session beside the log, and is left out then.
    fn open(&mut self, settings: Settings, time: u64, answer: u32) {
        let mut record = [0; LOG_OPEN_OCTETS];
        if answer == 26 || answer != 0 && !self.beside.is_empty() {
            return;
        }
        if log_open(&mut record, settings, time, answer as u16) == 0 {
            self.octets.extend(record);
        } else if answer == 0 {
            self.beside.push(settings.label);
            self.record_tick(time);
        }
    }
}

/// One end of the circuit.
struct End {
    name: char,
    table: Table,
    label: u32,
    log: Log,
}

impl End {
    fn logged(&mut self, time: u64, kind: u16, label: u32, answer: u32, message: &[u8]) {
        self.log.call(Logged { time, label, kind, answer: answer as u16 }, message);
    }
    fn said(&self, now: u64, call: &str, answer: u32) {
        let why = if answer == 0 { String::new() } else { format!(", {}", answer_name(answer)) };
        println!("{now:9} {} {call}: {answer}{why}", self.name);
    }
    fn open_in_mode(&mut self, now: u64, label: u32, discriminator: u32, ends: [MepId; 2], mode: u8) {
        let ([own, expected], period) = (ends, 1000000);
        let settings = Settings { own, expected, label, discriminator, period, follow_link: 1, follow_lock: 0, mode };
        let answer = self.table.open(opened_by_us(settings), now);
        self.log.open(settings, now, answer);
        let as_what = if mode == COORDINATED { String::new() } else { format!(" as {}", mode_name(mode)) };
        self.said(now, &format!("open{as_what} {label}"), answer);
    }
    fn open(&mut self, now: u64, label: u32, discriminator: u32, own: MepId, expected: MepId) {
        self.open_in_mode(now, label, discriminator, [own, expected], COORDINATED);
    }
    fn tick(&mut self, now: u64) {
        let answer = self.table.tick(now);
        self.logged(now, TICK, 0, answer, &[]);
        self.said(now, "tick", answer);
    }
    fn report(&mut self, now: u64) {
        let r = self.table.report(ours(self.label));
        self.logged(now, REPORT, self.label, r.answer, &[]);
        self.said(now, &format!("report {}", self.label), r.answer);
        if r.answer == 0 {
            let state = ["ADMIN DOWN", "DOWN", "INIT", "UP"][r.state as usize];
            println!(
                "           {state}, crossing {}, loss {}, alarm {}, RDI {}, blocked {}, conditions {}",
                r.crossing, r.loss, r.alarm, r.rdi, r.blocked, r.conditions
            );
        }
    }
    fn receive(&mut self, now: u64, message: &[u8]) {
        let answer = self.table.receive(ours(self.label), message, now);
        self.logged(now, RECEIVE, self.label, answer, message);
        self.said(now, &format!("receive {}", self.label), answer);
    }
    fn write_cv(&mut self, now: u64, label: u32, buffer: &mut [u8]) -> u32 {
        let answer = self.table.write_cv(ours(label), buffer);
        self.logged(now, WRITE_CV, label, answer, &[]);
        self.said(now, &format!("write CV {label}"), answer);
        answer
    }
}

fn octets(o: &[u8]) {
    println!("           {}", o.iter().map(|x| format!("{x:02x}")).collect::<String>());
}

/// The CC that one end is to send, heard by the other.
fn pass_cc(now: u64, from: &mut End, to: &mut End) {
    let mut m = [0; 28];
    from.tick(now);
    let answer = from.table.write_cc(ours(from.label), &mut m);
    from.logged(now, WRITE_CC, from.label, answer, &[]);
    from.said(now, &format!("write CC {}", from.label), answer);
    if answer == 0 {
        octets(&m);
        to.receive(now, &m);
    }
}

/// The same for the CV of any label of the sender; its reader says how many octets it has.
fn pass_cv(now: u64, from: &mut End, label: u32, to: &mut End) {
    let mut m = [0; CV_OCTETS];
    from.tick(now);
    if from.write_cv(now, label, &mut m) == 0 {
        let m = &m[..read_cv(&m).place as usize];
        octets(m);
        to.receive(now, m);
    }
}

fn both(now: u64, a: &mut End, b: &mut End) {
    pass_cc(now, a, b);
    pass_cc(now, b, a);
}

/// Once a second, both ways.
fn exchange(from: u64, to: u64, a: &mut End, b: &mut End) {
    for now in (from..=to).step_by(1000000) {
        both(now, a, b);
    }
}

fn lsp(node: u32) -> MepId {
    MepId { kind: 1, global: 7, node, local: 0x00050001, ..MepId::default() }
}

/// A pseudowire from its octets: AC_ID 5, and an AGI of type 1 and 9 octets, of which the last is `group`.
fn pseudowire(node: u8, group: u8) -> MepId {
    let head = [0, 2, 0, 23, 0, 0, 0, 7, 0, 0, 0, node, 0, 0, 0, 5, 1, 9];
    read_mep_id(&[&head, b"group no".as_slice(), &[group]].concat()).mep
}

/// AIS with link down from a node in between, refreshed every second.
fn ais(now: u64, to: &mut End) {
    let f = Fault {
        node: 30,
        interface: 4,
        global: 7,
        kind: 1,
        link_down: 1,
        removed: 0,
        refresh: 1,
        has_if_id: 1,
        has_global_id: 1,
    };
    let mut m = [0; 25];
    println!("{now:9} AIS written: {}", write_fault_message(&mut m, f));
    octets(&m);
    to.receive(now, &m);
}

/// Every field of a record, as the library stored it, read through the declarations above: a session
/// that is opened, hears a CC, takes an LKR and is crossed, with values that tell the fields apart.
fn check_layout() {
    let word = |first: u64| 0x0001020304050607 + 0x0101010101010101 * first;
    let agi = |first: u64| [first, first + 8, first + 16, first + 24].map(word);
    let (group, size) = (0x4d, 32);
    let own = MepId { agi: agi(0x80), global: 0x41424344, node: 0x45464748, local: 0x494a4b4c, kind: 2, group, size };
    let (group, size) = (0x5d, 31);
    let expected =
        MepId { agi: agi(0xa0), global: 0x51525354, node: 0x55565758, local: 0x595a5b5c, kind: 2, group, size };
    let settings = Settings {
        own,
        expected,
        label: 0x11121,
        discriminator: 0x21222324,
        period: 0x313233,
        follow_link: 1,
        follow_lock: 0,
        mode: SINK,
    };
    let heard = Packet { my: 0x61626364, diagnostic: 9, state: 1, multiplier: 5, poll: 1, ..Packet::default() };
    let crossed = Packet { your: 1, ..heard };
    let lkr = Fault {
        node: 0x71727374,
        interface: 0x75767778,
        global: 0x797a7b7c,
        kind: 2,
        link_down: 1,
        removed: 0,
        refresh: 20,
        has_if_id: 1,
        has_global_id: 1,
    };
    let mut t = Table::new();
    let mut m = [0; 28];
    assert_eq!((t.empty(), t.open(opened_by_us(settings), 0x010203)), (0, 0));
    assert_eq!((write_cc_message(&mut m, heard), t.receive(ours(settings.label), &m, 0x010204)), (0, 0));
    assert_eq!((write_fault_message(&mut m, lkr), t.receive(ours(settings.label), &m[..25], 0x010205)), (0, 0));
    assert_eq!((write_cc_message(&mut m, crossed), t.receive(ours(settings.label), &m, 0x010206)), (0, 0));
    let key = Key { node: lkr.node, interface: lkr.interface, global: lkr.global, kind: 2, present: 1, carrier: 1 };
    let mut conditions = [Condition::default(); 4];
    conditions[0] = Condition { at: 0x010205, key, refresh: 20, link_down: 1 };
    let peer = Peer { remote: heard.my, multiplier: 5, diagnostic: 9, owed: 1 };
    assert_eq!(
        t.row[0],
        Session {
            timed: 0x010204,
            crossed: 0x010206,
            conditions,
            settings,
            peer,
            state: 1,
            crossing: 1,
            group: Group::default(),
        }
    );
    assert_eq!(t.head, Head { clock: 0x010206, occupied: 1 });
}

/// The fields of a packet, told apart by the octets that they become, and read back from them.
fn check_packet() {
    let octets = [1, 2, 3, 4].map(|i| u32::from_be_bytes([4 * i - 3, 4 * i - 2, 4 * i - 1, 4 * i]));
    let [my, your, transmit, receive] = octets;
    let flags = Packet { poll: 1, independent: 1, ..Packet::default() };
    let p =
        Packet { my, your, transmit, receive, echo: 0x11121314, diagnostic: 0x1f, state: 2, multiplier: 0x15, ..flags };
    let id = MepId { kind: 1, global: 0x21222324, node: 0x25262728, local: 0x292a2b2c, ..MepId::default() };
    let mut cv = [0; 44];
    assert_eq!(write_cv_message(&mut cv, p, id), 0);
    assert_eq!(cv[..8], [0x10, 0, 0, 0x23, 0x3f, 0xa8, 0x15, 0x18]);
    assert!((8..28).all(|i| cv[i] as usize == i - 7) && cv[28..32] == [0, 1, 0, 12]);
    assert!((32..44).all(|i| cv[i] as usize == i + 1));
    let v = read_cv(&cv);
    assert_eq!((v.answer, v.place, v.part, v.part_octets, v.packet, v.mep), (0, 44, 28, 16, p, id));
    let mut cc = [0; 28];
    let other = Packet { state: 3, poll: 0, independent: 0, fin: 1, demand: 1, ..p };
    assert_eq!((write_cc_message(&mut cc, other), cc[5]), (0, 0xd2));
}

/// The same for the MEP-ID of a pseudowire, alone and in a CV, with every AGI length.
fn check_pseudowire() {
    let p = Packet { my: 1, multiplier: 3, ..Packet::default() };
    for size in 0..=32u8 {
        let n = usize::from(size);
        let agi: Vec<u8> = (0x61..0x61 + size).collect();
        let value = [&[0x21, 0x22, 0x23, 0x24, 0x25, 0x26, 0x27, 0x28, 0x29, 0x2a, 0x2b, 0x2c, 9, size], &agi[..]];
        let octets = [&[0, 2, 0, 14 + size], &value.concat()[..]].concat();
        let r = read_mep_id(&octets);
        let id = r.mep;
        assert_eq!((r.answer, id.kind, id.group, id.size), (0, 2, 9, size));
        assert_eq!((id.global, id.node, id.local), (0x21222324, 0x25262728, 0x292a2b2c));
        let words: Vec<u8> = id.agi.iter().flat_map(|word| word.to_be_bytes()).collect();
        assert!(words[..n] == agi[..] && words[n..].iter().all(|o| *o == 0));
        assert_eq!((read_mep_id(&octets[..17 + n]).answer, read_mep_id(&[0, 3, 0, 12]).answer), (3, 7));
        // octets behind the AGI are nobody's: not written, and nought when read
        let mut other = id;
        (n..32).for_each(|i| other.agi[i / 8] |= 0xee << (56 - 8 * (i % 8)));
        let mut m = [0xa5; CV_OCTETS];
        assert_eq!(write_cv_message(&mut m[..45 + n], p, other), 13);
        assert_eq!(write_cv_message(&mut m, p, other), 0);
        assert!(m[28..46 + n] == octets && m[46 + n..].iter().all(|o| *o == 0xa5));
        let v = read_cv(&m);
        assert_eq!((v.answer, v.place, v.part, v.part_octets, v.mep), (0, 46 + n as u64, 28, 18 + n as u32, id));
    }
    assert_eq!(write_cv_message(&mut [0; 128], p, MepId { kind: 2, size: 33, ..MepId::default() }), 10);
    assert_eq!(write_cv_message(&mut [0; 44], p, MepId { kind: 1, size: 200, ..MepId::default() }), 0);
}

/// The same for a fault message.
fn check_fault() {
    let mut o = [0; 25];
    let lkr = Fault {
        node: 0x31323334,
        interface: 0x35363738,
        kind: 2,
        link_down: 1,
        refresh: 20,
        has_if_id: 1,
        ..Fault::default()
    };
    assert_eq!(write_fault_message(&mut o, lkr), 0);
    assert_eq!(o[..11], [0x10, 0, 0, 0x58, 0x10, 2, 2, 20, 10, 1, 8]);
    assert!((11..19).all(|i| o[i] as usize == i + 0x26));
    let w = read_fault(&o[..19]);
    assert_eq!((w.answer, w.place, w.fault), (0, 19, lkr));
    let ais = Fault { global: 0x393a3b3c, kind: 1, removed: 1, refresh: 5, has_global_id: 1, ..Fault::default() };
    assert_eq!(write_fault_message(&mut o, ais), 0);
    assert_eq!(o[..15], [0x10, 0, 0, 0x58, 0x10, 1, 1, 5, 6, 2, 4, 0x39, 0x3a, 0x3b, 0x3c]);
}

/// A row of another length: each call answers 26, and row, head and buffer stay as they are.
fn check_rows() {
    let settings = Settings { label: 100, discriminator: 17, period: 1000000, ..Settings::default() };
    let other = Settings { label: 101, discriminator: 18, ..settings };
    let mut table = Table::new();
    assert_eq!((table.empty(), table.open(opened_by_us(settings), 0)), (0, 0));
    let kept = [table.row.as_slice(), &[Session::default()]].concat();
    for records in [0, RECORDS - 1, RECORDS + 1] {
        let (mut row, mut head, mut buffer) = (kept.clone(), table.head, [0xa5; 44]);
        let (r, h, b) = (row.as_mut_ptr(), &mut head as *mut Head, buffer.as_mut_ptr());
        let answers = unsafe {
            [
                korvezul_empty(r, records, h),
                korvezul_tick(r, records, h, 1),
                korvezul_open(r, records, h, opened_by_us(other), 1),
                korvezul_close(r, records, h, ours(100), 1),
                korvezul_lock(r, records, h, ours(100), 1),
                korvezul_unlock(r, records, h, ours(100), 1),
                korvezul_receive(r, records, h, ours(100), b, 44, 1),
                korvezul_report(r, records, h, ours(100)).answer,
                korvezul_write_cc(r, records, h, ours(100), b, 44),
                korvezul_write_cv(r, records, h, ours(100), b, 44),
            ]
        };
        assert_eq!(answers, [26; 10]);
        assert!(row == kept && head == table.head && buffer == [0xa5; 44]);
    }
}

fn message_refusals(mut cc: [u8; 28], mut fault: [u8; 25], mut p: Packet) {
    let r = read_cc(&cc[..27]);
    println!(
        "CC of 27 octets: {} at {}, and {}",
        r.answer,
        r.place,
        if r.packet == Packet::default() { "noughts" } else { "something" }
    );
    let v = read_cv(&cc);
    println!("CC read as a CV: {} at {}", v.answer, v.place);
    fault[10] = 3;
    let w = read_fault(&fault[..15]);
    println!("Global_ID of length 3: {} at {}", w.answer, w.place);
    println!("CC into 27 octets: {}", write_cc_message(&mut cc[..27], p));
    p.poll = 2;
    println!("P of 2 written: {}", write_cc_message(&mut cc, p));
}

/// The readers and writers of messages alone.
fn messages() {
    let (mut cc, mut cv, mut fault) = ([0; 28], [0; 47], [0; 25]);
    let p = Packet {
        my: 17,
        your: 34,
        transmit: 1000000,
        receive: 1000000,
        diagnostic: 3,
        state: 3,
        multiplier: 3,
        fin: 1,
        ..Packet::default()
    };
    let f = Fault { kind: 2, refresh: 20, removed: 1, global: 9, has_global_id: 1, ..Fault::default() };
    print!("write CC: {}", write_cc_message(&mut cc, p));
    let r = read_cc(&cc);
    println!(
        ", read: {}, {} octets, my {}, your {}, state {}, diagnostic {}, F {}",
        r.answer, r.place, r.packet.my, r.packet.your, r.packet.state, r.packet.diagnostic, r.packet.fin
    );
    print!("write CV: {}", write_cv_message(&mut cv, p, lsp(20)));
    let v = read_cv(&cv);
    assert!(v.packet == p);
    println!(", read: {}, {} octets of 47, node {}, part from octet {}", v.answer, v.place, v.mep.node, v.part);
    octets(&cv[v.part as usize..(v.part + v.part_octets) as usize]);
    print!("write LKR: {}", write_fault_message(&mut fault, f));
    let w = read_fault(&fault[..15]);
    let g = w.fault;
    println!(
        ", read: {}, {} octets, type {}, R {}, refresh {}, IF_ID {}, Global_ID {}: {}",
        w.answer, w.place, g.kind, g.removed, g.refresh, g.has_if_id, g.has_global_id, g.global
    );
    message_refusals(cc, fault, p);
}

fn both_report(now: u64, a: &mut End, b: &mut End) {
    a.report(now);
    b.report(now);
}

fn tick_and_report(now: u64, e: &mut End) {
    e.tick(now);
    e.report(now);
}

fn come_up(a: &mut End, b: &mut End) {
    println!("-- two tables made empty, a session opened in each");
    for e in [&mut *a, &mut *b] {
        let answer = e.table.empty();
        e.log = Log::new();
        e.said(0, "empty", answer);
    }
    a.open(0, 100, 17, lsp(10), lsp(20));
    b.open(0, 200, 34, lsp(20), lsp(10));
    println!("-- CC goes both ways until both are UP");
    exchange(0, 2000000, a, b);
    both_report(2000000, a, b);
    println!("-- CV goes both ways, and each end is the one expected");
    pass_cv(2500000, a, 100, b);
    pass_cv(2500000, b, 200, a);
    both_report(2500000, a, b);
}

fn cross(a: &mut End, b: &mut End) {
    println!("-- the CV of another circuit of A comes out at B: crossed, blocked, down");
    a.open(3000000, 101, 18, lsp(11), lsp(21));
    pass_cv(3000000, a, 101, b);
    b.report(3000000);
    println!("-- set right again: B is held down until 3.5 seconds after the crossed message");
    exchange(3000000, 6000000, a, b);
    both_report(6000000, a, b);
    tick_and_report(6499999, b);
    tick_and_report(6500000, b);
    println!("-- nothing holds B any more: both come up");
    exchange(7000000, 9000000, a, b);
    both_report(9000000, a, b);
}

fn cut(a: &mut End, b: &mut End) {
    println!("-- the wire is cut: no loss at 3 periods, a loss and its alarm one microsecond later");
    tick_and_report(12000000, a);
    a.tick(12000001);
    b.tick(12000001);
    both_report(12000001, a, b);
    println!("-- AIS tells A why: the alarm is held back while it stands");
    ais(12000001, a);
    a.report(12000001);
    tick_and_report(15500000, a);
    tick_and_report(15500001, a);
    println!("-- the wire is whole: both come up again");
    exchange(16000000, 18000000, a, b);
    both_report(18000000, a, b);
}

fn lock_and_unlock(a: &mut End, b: &mut End) {
    println!("-- A is locked: B hears ADMIN DOWN, and A takes no BFD message");
    let answer = a.table.lock(ours(100), 18000000);
    a.logged(18000000, LOCK, 100, answer, &[]);
    a.said(18000000, "lock 100", answer);
    both(18000000, a, b);
    both_report(18000000, a, b);
    println!("-- and unlocked");
    let answer = a.table.unlock(ours(100), 18000000);
    a.logged(18000000, UNLOCK, 100, answer, &[]);
    a.said(18000000, "unlock 100", answer);
    exchange(18000000, 20000000, a, b);
    both_report(20000000, a, b);
}

/// A buffer with one octet less than the CV of this pseudowire has stays as it is.
fn too_short(now: u64, e: &mut End, label: u32) {
    let mut m = [0xa5; 54];
    e.write_cv(now, label, &mut m);
    octets(&m);
}

fn over_a_pseudowire(a: &mut End, b: &mut End) {
    let now = 20000000;
    println!("-- a pseudowire beside the LSP: its CV has 46 octets and those of its AGI");
    a.open(now, 102, 19, pseudowire(10, b'1'), pseudowire(20, b'1'));
    b.open(now, 202, 35, pseudowire(20, b'1'), pseudowire(10, b'1'));
    (a.label, b.label) = (102, 202);
    too_short(now, a, 102);
    pass_cv(now, a, 102, b);
    pass_cv(now, b, 202, a);
    both_report(now, a, b);
    println!("-- the CV of another group comes out at B: its AGI differs in the last octet");
    a.open(now, 103, 20, pseudowire(10, b'2'), pseudowire(20, b'2'));
    pass_cv(now, a, 103, b);
    b.report(now);
    (a.label, b.label) = (100, 200);
}

/// Close, of the first records of the row.
fn close_of(table: &mut Table, records: usize, label: u32, reading: u64) -> u32 {
    let row = &mut table.row[..records];
    unsafe { korvezul_close(row.as_mut_ptr(), row.len(), &mut table.head, ours(label), reading) }
}

fn refusals(a: &mut End) {
    println!("-- refusals");
    for (now, records) in [(19999999, RECORDS), (20000000, RECORDS - 1), (20000000, RECORDS)] {
        let answer = close_of(&mut a.table, records, 100, now);
        a.logged(now, CLOSE, 100, answer, &[]);
        a.said(now, "close 100", answer);
    }
    a.report(20000000);
}

/// One direction, from A to B: the source hears how the sink is, and what it misses itself is nothing.
fn independently(a: &mut End, b: &mut End) {
    let (now, late) = (20000000, 23000001);
    println!("-- an independent session from A to B: A is its source, B its sink");
    (a.label, b.label) = (104, 204);
    a.open_in_mode(now, 104, 21, [lsp(10), lsp(20)], SOURCE);
    b.open_in_mode(now, 204, 36, [lsp(20), lsp(10)], SINK);
    println!("-- both come up, and the source asks for nothing: its required receive interval is 0");
    both(now, a, b);
    pass_cc(now, a, b);
    both_report(now, a, b);
    println!("-- the wire is cut: the sink has a loss, the source has none");
    tick_and_report(late, a);
    tick_and_report(late, b);
    println!("-- the sink says so: the source shows a remote defect and stays UP");
    pass_cc(late, b, a);
    a.report(late);
    println!("-- the CV of another circuit comes out at A: the source is blocked and stays UP");
    pass_cv(late, b, 202, a);
    a.report(late);
    println!("-- the wire is whole: the UP of the source brings the sink up");
    pass_cc(late, a, b);
    b.report(late);
    println!("-- a mode that is none");
    a.open_in_mode(late, 105, 22, [lsp(10), lsp(20)], 3);
}

fn main() {
    assert_eq!(unsafe { korvezul_version() }, VERSION);
    check_layout();
    check_packet();
    check_pseudowire();
    check_fault();
    check_rows();
    let mut a = End { name: 'A', table: Table::new(), label: 100, log: Log::new() };
    let mut b = End { name: 'B', table: Table::new(), label: 200, log: Log::new() };
    come_up(&mut a, &mut b);
    cross(&mut a, &mut b);
    cut(&mut a, &mut b);
    lock_and_unlock(&mut a, &mut b);
    over_a_pseudowire(&mut a, &mut b);
    refusals(&mut a);
    independently(&mut a, &mut b);
    println!("-- messages alone");
    messages();
    for (path, end) in std::env::args().skip(1).zip([a, b]) {
        std::fs::write(path, end.log.octets).expect("a log is written");
    }
}
