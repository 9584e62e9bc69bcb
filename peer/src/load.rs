//! Long captures, to measure speed. Their records are written as in a text
//! (`assemble`), so that what is measured can be read.

use crate::assemble::append_line;
use crate::capture::HEADER;
use crate::party::FIRST_OF_THEIRS;
use std::io::{self, Write};
use std::str::FromStr;

/// How often each session sends a CC, in microseconds; in a mixed load ten times
/// as seldom, so that its conditions come round within 37,000 records.
const PERIOD: u64 = 3_300;
const MIXED_PERIOD: u64 = 33_000;
const MANY: u64 = 64;
/// The sessions of a mixed load whose far end is silent.
const SILENT: u64 = 4;
/// In a mixed load six records of ten are CCs.
const MIX: u64 = 10;
const CCS_IN_MIX: u64 = 6;

/// What a long capture is made of.
#[derive(Clone, Copy, Debug, PartialEq, Eq)]
pub enum Load {
    /// One session that receives CCs.
    One,
    /// 64 sessions, 32 of each party, that receive CCs in turn.
    Many,
    /// 64 sessions: CCs, CVs, conditions that come and lapse, reports,
    /// writes and refusals. 60 stay UP, four are lost.
    Mixed,
    /// 64 sessions with four conditions each: the most that there is to ask of
    /// a table.
    Full,
}

impl FromStr for Load {
    type Err = io::Error;

    fn from_str(word: &str) -> io::Result<Load> {
        match word {
            "one" => Ok(Load::One),
            "many" => Ok(Load::Many),
            "mixed" => Ok(Load::Mixed),
            "full" => Ok(Load::Full),
            _ => Err(io::Error::other(format!("no load: {word}"))),
        }
    }
}

/// Makes a capture of `count` records, the opens among them.
pub fn load(load: Load, count: u64, output: &mut impl Write) -> io::Result<()> {
    output.write_all(&HEADER)?;
    let mut octets = Vec::new();
    for number in 0..count {
        octets.clear();
        append_line(&mut octets, &line(load, number)).map_err(io::Error::other)?;
        output.write_all(&octets)?;
    }
    Ok(())
}

/// The record with this number, counted from 0.
pub fn line(load: Load, number: u64) -> String {
    let sessions = if load == Load::One { 1 } else { MANY };
    if number < sessions {
        let (label, my, period) = (label(number), own(number), period(load));
        return format!("0 {label} open my={my} period={period}");
    }
    let turn = number - sessions;
    match load {
        Load::One | Load::Many => cc(turn, turn * PERIOD / sessions, sessions, PERIOD),
        Load::Mixed => mixed(turn),
        Load::Full => full(turn),
    }
}

fn period(load: Load) -> u64 {
    match load {
        Load::One | Load::Many | Load::Full => PERIOD,
        Load::Mixed => MIXED_PERIOD,
    }
}

/// Ours and theirs in turn.
pub fn label(session: u64) -> u64 {
    1_000 + 37 * (session / 2) + session % 2 * u64::from(FIRST_OF_THEIRS)
}

/// The local discriminator, which both parties give out alike, and that of the
/// far end.
fn own(session: u64) -> u64 {
    17 + session / 2
}

fn far(session: u64) -> u64 {
    900 + session
}

/// The CCs go round the sessions: INIT in the first round, UP afterwards.
fn cc(turn: u64, time: u64, sessions: u64, period: u64) -> String {
    let session = turn % sessions;
    let state = if turn < sessions { "init" } else { "up" };
    let (label, my, your) = (label(session), far(session), own(session));
    format!(
        "{time} {label} receive cc {state} my={my} your={your} transmit={period} receive={period}"
    )
}

/// Six CCs, a CV, a fault message, a report and something else.
fn mixed(turn: u64) -> String {
    let heard = MANY - SILENT;
    let time = turn * MIXED_PERIOD * CCS_IN_MIX / (MIX * heard);
    let (round, place) = (turn / MIX, turn % MIX);
    let session = round % MANY;
    match place {
        0..CCS_IN_MIX => cc(round * CCS_IN_MIX + place, time, heard, MIXED_PERIOD),
        6 => {
            let session = round % heard;
            let (label, my, your) = (label(session), far(session), own(session));
            format!("{time} {label} receive cv up my={my} your={your}")
        }
        7 => fault(round, time, session),
        8 => format!("- {} report", label(session)),
        _ => other(round, time, session),
    }
}

/// For four seconds out of twelve a session hears of a fault upstream, so that
/// conditions come, are renewed, are ended and lapse: AIS of one interface, in
/// every fourth session LKR of another too, and in every sixteenth five
/// interfaces in turn, of which one finds no place (9).
fn fault(round: u64, time: u64, session: u64) -> String {
    let label = label(session);
    if (time / 4_000_000 + session) % 3 != 0 {
        return format!("- {label} report");
    }
    let visit = round / MANY;
    let (name, interface) = match session % 16 {
        0 => (["ais", "lkr"][(visit % 2) as usize], visit % 5),
        4 | 8 | 12 if visit % 2 == 0 => ("lkr", 7),
        _ => ("ais", 6),
    };
    let flags = ["", "L", "", "R"][(visit % 4) as usize];
    format!("{time} {label} receive {name} {flags} if=9/{interface} global=1")
}

/// Four conditions in each session to begin with, of 20 seconds' refresh, and
/// each renewed in turn; CCs otherwise.
fn full(turn: u64) -> String {
    let time = turn * PERIOD / MANY;
    let label = label(turn % MANY);
    match turn / MANY % 256 {
        interface @ (2 | 4 | 6 | 8) => {
            format!("{time} {label} receive ais refresh=20 if=9/{interface}")
        }
        _ => cc(turn, time, MANY, PERIOD),
    }
}

/// Ticks, writes, and refusals 1, 2, 6, 7, 8 and 11.
fn other(round: u64, time: u64, session: u64) -> String {
    let (label, my) = (label(session), own(session));
    match round % 9 {
        0 => format!("{time} - tick"),
        1 => format!("- {label} write-cc"),
        2 => format!("- {label} write-cv"),
        3 => "0 - tick".to_string(),
        4 => format!("{time} 16 receive cc down my=5"),
        5 => format!("{time} {label} receive cc up my=5"),
        6 => format!("{time} {label} receive cv up my=5 mep-type=2"),
        7 => format!("{time} {label} receive ais refresh=21"),
        _ => format!("{time} 17 open my={my}"),
    }
}
