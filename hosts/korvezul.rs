//! The header for a host in Rust, and the calls behind a type that lends its own row and head, so that
//! the borrow checker sees to what the header asks of a host.
#![allow(dead_code)] // a host calls what it needs
use std::mem::{align_of, offset_of, size_of};

pub const RECORDS: usize = 64;
/// The version of the header that these declarations follow, 7.1.0.
pub const VERSION: u32 = 0x070100;
/// The two operators of a row, how many sessions each may have open, and the first label that is theirs.
pub const OURS: u32 = 0;
pub const THEIRS: u32 = 1;
pub const PARTY_SESSIONS: u32 = 32;
pub const FIRST_OF_THEIRS: u32 = 500_000;
/// The modes of a session.
pub const COORDINATED: u8 = 0;
pub const SOURCE: u8 = 1;
pub const SINK: u8 = 2;
/// The roles of a PE in a dual-homing group.
pub const WORKING: u8 = 0;
pub const PROTECTION: u8 = 1;
/// What a service PW or an AC is.
pub const STANDBY: u8 = 0;
pub const ACTIVE: u8 = 1;
/// What a PE forwards.
pub const DROPS: u8 = 0;
pub const PW_WITH_AC: u8 = 1;
pub const PW_WITH_DNI: u8 = 2;
pub const DNI_WITH_AC: u8 = 3;
/// The longest plain CV.
pub const CV_OCTETS: usize = 78;
/// The longest plain DHC message.
pub const DHC_OCTETS: usize = 56;
/// The octets before the first record of a log, those of an open, and those of any other call without its message.
pub const LOG_HEADER_OCTETS: usize = 8;
pub const LOG_OPEN_OCTETS: usize = 53;
pub const LOG_CALL_OCTETS: usize = 18;
/// The calls by their numbers in a capture and in a log; an open is 1.
pub const TICK: u16 = 0;
pub const CLOSE: u16 = 2;
pub const LOCK: u16 = 3;
pub const UNLOCK: u16 = 4;
pub const RECEIVE: u16 = 5;
pub const REPORT: u16 = 6;
pub const WRITE_CC: u16 = 7;
pub const WRITE_CV: u16 = 8;

/// Of a pseudowire (kind 2) `local` is the AC_ID, `group` the AGI type and `size` the AGI length; octet i of the
/// AGI is `agi[i / 8].to_be_bytes()[i % 8]`. `read_mep_id` makes one from its octets.
#[repr(C)]
#[derive(Clone, Copy, Debug, Default, PartialEq)]
pub struct MepId {
    pub agi: [u64; 4],
    pub global: u32,
    pub node: u32,
    pub local: u32,
    pub kind: u16,
    pub group: u8,
    pub size: u8,
}

#[repr(C)]
#[derive(Clone, Copy, Debug, Default, PartialEq)]
pub struct Settings {
    pub own: MepId,
    pub expected: MepId,
    pub label: u32,
    pub discriminator: u32,
    pub period: u32,
    pub follow_link: u8,
    pub follow_lock: u8,
    pub mode: u8,
}

/// The label that a call is on, and the party that calls.
#[repr(C)]
#[derive(Clone, Copy, Debug, Default, PartialEq)]
pub struct Circuit {
    pub label: u32,
    pub party: u32,
}

/// What a session is opened with, and the party that opens it.
#[repr(C)]
#[derive(Clone, Copy, Debug, Default, PartialEq)]
pub struct Opening {
    pub settings: Settings,
    pub party: u32,
}

/// What a dual-homing group is set with; every role but 0 is protection.
#[repr(C)]
#[derive(Clone, Copy, Debug, Default, PartialEq)]
pub struct GroupSettings {
    pub id: u32,
    pub peer: u32,
    pub service: u32,
    pub dni: u32,
    pub role: u8,
}

/// The same, and the party that sets it.
#[repr(C)]
#[derive(Clone, Copy, Debug, Default, PartialEq)]
pub struct Grouping {
    pub settings: GroupSettings,
    pub party: u32,
}

/// The group of an ID, and the party that calls.
#[repr(C)]
#[derive(Clone, Copy, Debug, Default, PartialEq)]
pub struct GroupName {
    pub party: u32,
    pub id: u32,
}

/// A group, and what its AC is to be; every number but 0 is active.
#[repr(C)]
#[derive(Clone, Copy, Debug, Default, PartialEq)]
pub struct AcOf {
    pub group: GroupName,
    pub ac: u8,
}

/// What we call with: our label, our session to open, our group and the one that we set.
pub fn ours(label: u32) -> Circuit {
    Circuit { label, party: OURS }
}

pub fn opened_by_us(settings: Settings) -> Opening {
    Opening { settings, party: OURS }
}

pub fn our_group(id: u32) -> GroupName {
    GroupName { party: OURS, id }
}

pub fn grouped_by_us(settings: GroupSettings) -> Grouping {
    Grouping { settings, party: OURS }
}

/// What the second operator calls with.
pub fn theirs(label: u32) -> Circuit {
    Circuit { label, party: THEIRS }
}

pub fn opened_by_them(settings: Settings) -> Opening {
    Opening { settings, party: THEIRS }
}

pub fn their_group(id: u32) -> GroupName {
    GroupName { party: THEIRS, id }
}

pub fn grouped_by_them(settings: GroupSettings) -> Grouping {
    Grouping { settings, party: THEIRS }
}

/// Whose label it is, for a host that serves both.
pub fn party_of(label: u32) -> u32 {
    if label < FIRST_OF_THEIRS {
        OURS
    } else {
        THEIRS
    }
}

#[repr(C)]
#[derive(Clone, Copy, Debug, Default, PartialEq)]
pub struct Key {
    pub node: u32,
    pub interface: u32,
    pub global: u32,
    pub kind: u8,
    pub present: u8,
    pub carrier: u8,
}

#[repr(C)]
#[derive(Clone, Copy, Debug, Default, PartialEq)]
pub struct Condition {
    pub at: u64,
    pub key: Key,
    pub refresh: u8,
    pub link_down: u8,
}

#[repr(C)]
#[derive(Clone, Copy, Debug, Default, PartialEq)]
pub struct Peer {
    pub remote: u32,
    pub multiplier: u8,
    pub diagnostic: u8,
    pub owed: u8,
}

/// The dual-homing group of a service PW, in its record.
#[repr(C)]
#[derive(Clone, Copy, Debug, Default, PartialEq)]
pub struct Group {
    pub id: u32,
    pub peer: u32,
    pub dni: u32,
    pub set: u8,
    pub role: u8,
    pub pw: u8,
    pub ac: u8,
}

#[repr(C)]
#[derive(Clone, Copy, Debug, Default, PartialEq)]
pub struct Session {
    pub timed: u64,
    pub crossed: u64,
    pub conditions: [Condition; 4],
    pub settings: Settings,
    pub peer: Peer,
    pub state: u8,
    pub crossing: u8,
    pub group: Group,
}

#[repr(C)]
#[derive(Clone, Copy, Debug, Default, PartialEq)]
pub struct Head {
    pub clock: u64,
    pub occupied: u64,
}

#[repr(C)]
#[derive(Clone, Copy)]
pub struct ReportAnswer {
    pub answer: u32,
    pub state: u8,
    pub crossing: u8,
    pub loss: u8,
    pub alarm: u8,
    pub rdi: u8,
    pub blocked: u8,
    pub conditions: u8,
}

/// What a group tells: PW, AC, and what is forwarded.
#[repr(C)]
#[derive(Clone, Copy, Debug, Default, PartialEq)]
pub struct GroupReport {
    pub pw: u8,
    pub ac: u8,
    pub forwarding: u8,
}

/// 0 and the three, or a refusal and three noughts.
#[repr(C)]
#[derive(Clone, Copy, Debug, Default, PartialEq)]
pub struct GroupAnswer {
    pub answer: u32,
    pub group: GroupReport,
}

/// What is asked about: 1 a crossing, 2 a loss, 3 an alarm held back, 4 the condition of the key.
#[repr(C)]
#[derive(Clone, Copy, Debug, Default, PartialEq)]
pub struct Question {
    pub circuit: Circuit,
    pub key: Key,
    pub thing: u8,
}

#[repr(C)]
#[derive(Clone, Copy, Debug, Default, PartialEq)]
pub struct Cause {
    pub head: Head,
    pub reading: u64,
    pub age: u64,
    pub end: u64,
    pub answer: u32,
}

#[repr(C)]
#[derive(Clone, Copy, Debug, Default, PartialEq)]
pub struct Packet {
    pub my: u32,
    pub your: u32,
    pub transmit: u32,
    pub receive: u32,
    pub echo: u32,
    pub diagnostic: u8,
    pub state: u8,
    pub multiplier: u8,
    pub poll: u8,
    pub fin: u8,
    pub independent: u8,
    pub demand: u8,
}

#[repr(C)]
#[derive(Clone, Copy, Debug, Default, PartialEq)]
pub struct Fault {
    pub node: u32,
    pub interface: u32,
    pub global: u32,
    pub kind: u8,
    pub link_down: u8,
    pub removed: u8,
    pub refresh: u8,
    pub has_if_id: u8,
    pub has_global_id: u8,
}

/// PW Status, of a DHC message; `present` is 0 or 1, and behind a 0 all is 0.
#[repr(C)]
#[derive(Clone, Copy, Debug, Default, PartialEq)]
pub struct DhcStatus {
    pub destination: u32,
    pub source: u32,
    pub pw: u32,
    pub present: u8,
    pub protection: u8,
    pub degrade: u8,
    pub fail: u8,
}

/// Dual-Node Switching in the same way.
#[repr(C)]
#[derive(Clone, Copy, Debug, Default, PartialEq)]
pub struct DhcSwitching {
    pub destination: u32,
    pub source: u32,
    pub pw: u32,
    pub present: u8,
    pub switches: u8,
    pub protection: u8,
}

#[repr(C)]
#[derive(Clone, Copy, Debug, Default, PartialEq)]
pub struct Dhc {
    pub id: u32,
    pub status: DhcStatus,
    pub switching: DhcSwitching,
}

#[repr(C)]
pub struct CcRead {
    pub place: u64,
    pub answer: u32,
    pub packet: Packet,
}

#[repr(C)]
pub struct CvRead {
    pub place: u64,
    pub answer: u32,
    pub part: u32,
    pub part_octets: u32,
    pub packet: Packet,
    pub mep: MepId,
}

#[repr(C)]
pub struct MepIdRead {
    pub answer: u32,
    pub mep: MepId,
}

#[repr(C)]
pub struct FaultRead {
    pub place: u64,
    pub answer: u32,
    pub fault: Fault,
}

#[repr(C)]
pub struct DhcRead {
    pub answer: u32,
    pub dhc: Dhc,
}

/// What a configuration offers: 0 and the two numbers, or a refusal and noughts.
#[repr(C)]
#[derive(Clone, Copy, Debug, Default, PartialEq)]
pub struct ConfigurationRead {
    pub answer: u32,
    pub discriminator: u32,
    pub period: u32,
}

/// What a card did, for its log: the call, its reading and its label, and what it was answered.
#[repr(C)]
#[derive(Clone, Copy, Debug, Default, PartialEq)]
pub struct Logged {
    pub time: u64,
    pub label: u32,
    pub kind: u16,
    pub answer: u16,
}

// The layout that the library was compiled with.
const _: () = {
    assert!(size_of::<Session>() == 288 && align_of::<Session>() == 8 && offset_of!(Session, settings) == 144);
    assert!(size_of::<Group>() == 16 && offset_of!(Group, ac) == 15 && offset_of!(Session, group) == 268);
    assert!(offset_of!(Session, peer) == 256 && offset_of!(Session, state) == 264 && size_of::<Settings>() == 112);
    assert!(offset_of!(Settings, expected) == 48 && offset_of!(Settings, label) == 96 && size_of::<MepId>() == 48);
    assert!(offset_of!(Settings, follow_link) == 108 && offset_of!(Settings, mode) == 110);
    assert!(offset_of!(MepId, global) == 32 && offset_of!(MepId, kind) == 44 && offset_of!(MepId, size) == 47);
    assert!(size_of::<Condition>() == 32 && offset_of!(Condition, refresh) == 24 && size_of::<Head>() == 16);
    assert!(size_of::<ReportAnswer>() == 12 && size_of::<Packet>() == 28 && size_of::<Fault>() == 20);
    assert!(size_of::<CcRead>() == 40 && size_of::<CvRead>() == 96 && size_of::<FaultRead>() == 32);
    assert!(offset_of!(CcRead, answer) == 8 && offset_of!(CcRead, packet) == 12 && offset_of!(FaultRead, fault) == 12);
    assert!(offset_of!(CvRead, part) == 12 && offset_of!(CvRead, packet) == 20 && offset_of!(CvRead, mep) == 48);
    assert!(size_of::<MepIdRead>() == 56 && offset_of!(MepIdRead, mep) == 8);
    assert!(size_of::<DhcStatus>() == 16 && offset_of!(DhcStatus, present) == 12 && offset_of!(DhcStatus, fail) == 15);
    assert!(size_of::<DhcSwitching>() == 16 && offset_of!(DhcSwitching, protection) == 14 && size_of::<Dhc>() == 36);
    assert!(offset_of!(Dhc, status) == 4 && offset_of!(Dhc, switching) == 20 && align_of::<Dhc>() == 4);
    assert!(size_of::<DhcRead>() == 40 && offset_of!(DhcRead, dhc) == 4);
    assert!(size_of::<ConfigurationRead>() == 12 && offset_of!(ConfigurationRead, period) == 8);
    assert!(size_of::<Logged>() == 16 && align_of::<Logged>() == 8 && offset_of!(Logged, label) == 8);
    assert!(offset_of!(Logged, kind) == 12 && offset_of!(Logged, answer) == 14);
    assert!(size_of::<Circuit>() == 8 && align_of::<Circuit>() == 4 && offset_of!(Circuit, party) == 4);
    assert!(size_of::<Opening>() == 120 && align_of::<Opening>() == 8 && offset_of!(Opening, party) == 112);
    assert!(size_of::<GroupSettings>() == 20 && align_of::<GroupSettings>() == 4 && offset_of!(GroupSettings, id) == 0);
    assert!(offset_of!(GroupSettings, peer) == 4 && offset_of!(GroupSettings, service) == 8);
    assert!(offset_of!(GroupSettings, dni) == 12 && offset_of!(GroupSettings, role) == 16);
    assert!(size_of::<Grouping>() == 24 && align_of::<Grouping>() == 4 && offset_of!(Grouping, party) == 20);
    assert!(size_of::<GroupName>() == 8 && align_of::<GroupName>() == 4 && offset_of!(GroupName, id) == 4);
    assert!(size_of::<AcOf>() == 12 && align_of::<AcOf>() == 4 && offset_of!(AcOf, ac) == 8);
    assert!(size_of::<GroupReport>() == 3 && align_of::<GroupReport>() == 1 && offset_of!(GroupReport, pw) == 0);
    assert!(offset_of!(GroupReport, ac) == 1 && offset_of!(GroupReport, forwarding) == 2);
    assert!(size_of::<GroupAnswer>() == 8 && align_of::<GroupAnswer>() == 4 && offset_of!(GroupAnswer, group) == 4);
    assert!(size_of::<Question>() == 28 && offset_of!(Question, key) == 8 && offset_of!(Question, thing) == 24);
    assert!(size_of::<Cause>() == 48 && offset_of!(Cause, reading) == 16 && offset_of!(Cause, answer) == 40);
};

extern "C" {
    pub fn korvezul_version() -> u32;
    pub fn korvezul_empty(row: *const Session, records: usize, head: *mut Head) -> u32;
    pub fn korvezul_open(row: *mut Session, records: usize, head: *mut Head, opening: Opening, reading: u64) -> u32;
    pub fn korvezul_close(row: *mut Session, records: usize, head: *mut Head, circuit: Circuit, reading: u64) -> u32;
    pub fn korvezul_lock(row: *mut Session, records: usize, head: *mut Head, circuit: Circuit, reading: u64) -> u32;
    pub fn korvezul_unlock(row: *mut Session, records: usize, head: *mut Head, circuit: Circuit, reading: u64) -> u32;
    pub fn korvezul_receive(
        row: *mut Session,
        records: usize,
        head: *mut Head,
        circuit: Circuit,
        message: *const u8,
        octets: usize,
        reading: u64,
    ) -> u32;
    pub fn korvezul_tick(row: *mut Session, records: usize, head: *mut Head, reading: u64) -> u32;
    pub fn korvezul_set_group(row: *mut Session, records: usize, head: *mut Head, group: Grouping, reading: u64) -> u32;
    pub fn korvezul_set_ac(row: *mut Session, records: usize, head: *mut Head, ac: AcOf, reading: u64) -> u32;
    pub fn korvezul_return_group(
        row: *mut Session,
        records: usize,
        head: *mut Head,
        group: GroupName,
        reading: u64,
    ) -> u32;
    pub fn korvezul_ask_group(row: *mut Session, records: usize, head: *mut Head, group: GroupName) -> GroupAnswer;
    pub fn korvezul_report(row: *mut Session, records: usize, head: *mut Head, circuit: Circuit) -> ReportAnswer;
    pub fn korvezul_why(row: *mut Session, records: usize, head: *mut Head, question: Question) -> Cause;
    pub fn korvezul_write_cc(
        row: *mut Session,
        records: usize,
        head: *mut Head,
        circuit: Circuit,
        buffer: *mut u8,
        size: usize,
    ) -> u32;
    pub fn korvezul_write_cv(
        row: *mut Session,
        records: usize,
        head: *mut Head,
        circuit: Circuit,
        buffer: *mut u8,
        size: usize,
    ) -> u32;
    pub fn korvezul_read_cc(message: *const u8, octets: usize) -> CcRead;
    pub fn korvezul_read_cv(message: *const u8, octets: usize) -> CvRead;
    pub fn korvezul_read_fault(message: *const u8, octets: usize) -> FaultRead;
    pub fn korvezul_read_dhc(message: *const u8, octets: usize) -> DhcRead;
    pub fn korvezul_read_mep_id(octets: *const u8, size: usize) -> MepIdRead;
    pub fn korvezul_write_cc_message(buffer: *mut u8, size: usize, packet: Packet) -> u32;
    pub fn korvezul_write_cv_message(buffer: *mut u8, size: usize, packet: Packet, mep: MepId) -> u32;
    pub fn korvezul_write_fault_message(buffer: *mut u8, size: usize, fault: Fault) -> u32;
    pub fn korvezul_write_dhc_message(buffer: *mut u8, size: usize, dhc: Dhc) -> u32;
    pub fn korvezul_read_configuration(octets: *const u8, size: usize, authentication: u16) -> ConfigurationRead;
    pub fn korvezul_write_configuration(buffer: *mut u8, size: usize, discriminator: u32, period: u32) -> u32;
    pub fn korvezul_log_header(buffer: *mut u8, size: usize) -> u32;
    pub fn korvezul_log_open(buffer: *mut u8, size: usize, settings: Settings, reading: u64, answer: u16) -> u32;
    pub fn korvezul_log_call(buffer: *mut u8, size: usize, what: Logged, message: *const u8, octets: usize) -> u32;
}

/// A table. A slice or an array is never null and is aligned, and what is borrowed apart is apart:
/// that is all that the calls ask.
#[derive(Clone, PartialEq)]
pub struct Table {
    pub row: [Session; RECORDS],
    pub head: Head,
}

impl Table {
    pub fn new() -> Table {
        Table { row: [Session::default(); RECORDS], head: Head::default() }
    }
    pub fn empty(&mut self) -> u32 {
        unsafe { korvezul_empty(self.row.as_ptr(), RECORDS, &mut self.head) }
    }
    pub fn open(&mut self, opening: Opening, reading: u64) -> u32 {
        unsafe { korvezul_open(self.row.as_mut_ptr(), RECORDS, &mut self.head, opening, reading) }
    }
    pub fn close(&mut self, circuit: Circuit, reading: u64) -> u32 {
        unsafe { korvezul_close(self.row.as_mut_ptr(), RECORDS, &mut self.head, circuit, reading) }
    }
    pub fn lock(&mut self, circuit: Circuit, reading: u64) -> u32 {
        unsafe { korvezul_lock(self.row.as_mut_ptr(), RECORDS, &mut self.head, circuit, reading) }
    }
    pub fn unlock(&mut self, circuit: Circuit, reading: u64) -> u32 {
        unsafe { korvezul_unlock(self.row.as_mut_ptr(), RECORDS, &mut self.head, circuit, reading) }
    }
    pub fn receive(&mut self, circuit: Circuit, message: &[u8], reading: u64) -> u32 {
        unsafe {
            korvezul_receive(
                self.row.as_mut_ptr(),
                RECORDS,
                &mut self.head,
                circuit,
                message.as_ptr(),
                message.len(),
                reading,
            )
        }
    }
    pub fn tick(&mut self, reading: u64) -> u32 {
        unsafe { korvezul_tick(self.row.as_mut_ptr(), RECORDS, &mut self.head, reading) }
    }
    pub fn set_group(&mut self, group: Grouping, reading: u64) -> u32 {
        unsafe { korvezul_set_group(self.row.as_mut_ptr(), RECORDS, &mut self.head, group, reading) }
    }
    pub fn set_ac(&mut self, ac: AcOf, reading: u64) -> u32 {
        unsafe { korvezul_set_ac(self.row.as_mut_ptr(), RECORDS, &mut self.head, ac, reading) }
    }
    pub fn return_group(&mut self, group: GroupName, reading: u64) -> u32 {
        unsafe { korvezul_return_group(self.row.as_mut_ptr(), RECORDS, &mut self.head, group, reading) }
    }
    pub fn ask_group(&mut self, group: GroupName) -> GroupAnswer {
        unsafe { korvezul_ask_group(self.row.as_mut_ptr(), RECORDS, &mut self.head, group) }
    }
    pub fn report(&mut self, circuit: Circuit) -> ReportAnswer {
        unsafe { korvezul_report(self.row.as_mut_ptr(), RECORDS, &mut self.head, circuit) }
    }
    pub fn why(&mut self, question: Question) -> Cause {
        unsafe { korvezul_why(self.row.as_mut_ptr(), RECORDS, &mut self.head, question) }
    }
    pub fn write_cc(&mut self, circuit: Circuit, buffer: &mut [u8]) -> u32 {
        unsafe {
            korvezul_write_cc(
                self.row.as_mut_ptr(),
                RECORDS,
                &mut self.head,
                circuit,
                buffer.as_mut_ptr(),
                buffer.len(),
            )
        }
    }
    pub fn write_cv(&mut self, circuit: Circuit, buffer: &mut [u8]) -> u32 {
        unsafe {
            korvezul_write_cv(
                self.row.as_mut_ptr(),
                RECORDS,
                &mut self.head,
                circuit,
                buffer.as_mut_ptr(),
                buffer.len(),
            )
        }
    }
}

pub fn read_cc(message: &[u8]) -> CcRead {
    unsafe { korvezul_read_cc(message.as_ptr(), message.len()) }
}

pub fn read_cv(message: &[u8]) -> CvRead {
    unsafe { korvezul_read_cv(message.as_ptr(), message.len()) }
}

pub fn read_fault(message: &[u8]) -> FaultRead {
    unsafe { korvezul_read_fault(message.as_ptr(), message.len()) }
}

/// A message of dual-homing coordination, without a table; `Table::receive` hands one to its group.
pub fn read_dhc(message: &[u8]) -> DhcRead {
    unsafe { korvezul_read_dhc(message.as_ptr(), message.len()) }
}

/// A MEP-ID from its own octets, type to end.
pub fn read_mep_id(octets: &[u8]) -> MepIdRead {
    unsafe { korvezul_read_mep_id(octets.as_ptr(), octets.len()) }
}

pub fn write_cc_message(buffer: &mut [u8], packet: Packet) -> u32 {
    unsafe { korvezul_write_cc_message(buffer.as_mut_ptr(), buffer.len(), packet) }
}

pub fn write_cv_message(buffer: &mut [u8], packet: Packet, mep: MepId) -> u32 {
    unsafe { korvezul_write_cv_message(buffer.as_mut_ptr(), buffer.len(), packet, mep) }
}

pub fn write_fault_message(buffer: &mut [u8], fault: Fault) -> u32 {
    unsafe { korvezul_write_fault_message(buffer.as_mut_ptr(), buffer.len(), fault) }
}

pub fn write_dhc_message(buffer: &mut [u8], dhc: Dhc) -> u32 {
    unsafe { korvezul_write_dhc_message(buffer.as_mut_ptr(), buffer.len(), dhc) }
}

/// Discriminator and period from nested TLVs; `authentication` is the type of BFD Authentication.
pub fn read_configuration(octets: &[u8], authentication: u16) -> ConfigurationRead {
    unsafe { korvezul_read_configuration(octets.as_ptr(), octets.len(), authentication) }
}

pub fn write_configuration(buffer: &mut [u8], discriminator: u32, period: u32) -> u32 {
    unsafe { korvezul_write_configuration(buffer.as_mut_ptr(), buffer.len(), discriminator, period) }
}

/// The octets before the first record of a log.
pub fn log_header(buffer: &mut [u8]) -> u32 {
    unsafe { korvezul_log_header(buffer.as_mut_ptr(), buffer.len()) }
}

/// A record of an open and of what it was answered; 10 for settings that a record cannot hold.
pub fn log_open(buffer: &mut [u8], settings: Settings, reading: u64, answer: u16) -> u32 {
    unsafe { korvezul_log_open(buffer.as_mut_ptr(), buffer.len(), settings, reading, answer) }
}

/// A record of any other call; only a receive has a message.
pub fn log_call(buffer: &mut [u8], what: Logged, message: &[u8]) -> u32 {
    unsafe { korvezul_log_call(buffer.as_mut_ptr(), buffer.len(), what, message.as_ptr(), message.len()) }
}

/// The names of `korvezul_names.h`.
pub fn answer_name(answer: u32) -> &'static str {
    match answer {
        0 => "accepted",
        1 => "reading below the clock or too great",
        2 => "no such session",
        3 => "message too short",
        4 => "no G-ACh header",
        5 => "other channel",
        6 => "BFD rule broken",
        7 => "MEP-ID wrong",
        8 => "fault message wrong",
        9 => "four conditions stand",
        10 => "out of range",
        11 => "label, discriminator or group taken",
        12 => "all sessions of the party open",
        13 => "buffer too short",
        14 => "session locked",
        15 => "does not stand",
        16 => "entry past its holder's end",
        17 => "entry of a wrong length",
        18 => "needed entry missing or twice",
        24 => "no such group",
        25 => "DHC message wrong",
        26 => "not a table",
        _ => "unknown",
    }
}

pub fn party_name(party: u32) -> &'static str {
    match party {
        OURS => "ours",
        THEIRS => "theirs",
        _ => "unknown",
    }
}

pub fn mode_name(mode: u8) -> &'static str {
    match mode {
        COORDINATED => "coordinated",
        SOURCE => "source",
        SINK => "sink",
        _ => "unknown",
    }
}

pub fn role_name(role: u8) -> &'static str {
    match role {
        WORKING => "working",
        PROTECTION => "protection",
        _ => "unknown",
    }
}

pub fn activity_name(activity: u8) -> &'static str {
    match activity {
        STANDBY => "standby",
        ACTIVE => "active",
        _ => "unknown",
    }
}

pub fn forwarding_name(forwarding: u8) -> &'static str {
    match forwarding {
        DROPS => "drops all",
        PW_WITH_AC => "service PW with AC",
        PW_WITH_DNI => "service PW with DNI-PW",
        DNI_WITH_AC => "DNI-PW with AC",
        _ => "unknown",
    }
}
