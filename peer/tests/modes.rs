//! Independent sessions: the machines of source and sink beside the coordinated
//! one, cell by cell, and what else hangs on the mode.

mod common;

use common::*;
use peer::capture::Kind;
use peer::list::{self, Line};
use peer::machine::Mode;
use peer::message::State;
use peer::table::Table;
use peer::why::cause::{answer, Answer};
use peer::why::history::{Event, Front};
use peer::why::question::Question;

/// The inputs in the order of the tables' columns: four received states, TIMER,
/// LDI, LKR, a crossed message, lock and unlock.
const INPUTS: [&str; 10] = [
    "5 100 receive cc down my=5 your=17",
    "5 100 receive cc init my=5 your=17",
    "5 100 receive cc up my=5 your=17",
    "5 100 receive cc admin-down my=5 your=17",
    "3,000,001 - tick",
    "5 100 receive ais L",
    "5 100 receive lkr",
    "5 100 receive cc up my=5 your=99",
    "5 100 lock",
    "5 100 unlock",
];

// A row is a state and what each input makes of it: D is DOWN, 3 DOWN by a
// received state, which is remembered, I is INIT, U UP and A ADMIN DOWN.

const COORDINATED: &str = "D: I U D D  D D D D  A D
                           3: I U 3 3  3 3 3 3  A 3
                           I: I U U 3  D D D D  A I
                           U: 3 U U 3  D D D D  A U
                           A: A A A A  A A A A  A D";

const SOURCE: &str = "D: I U D D  D D D D  A D
                      3: I U 3 3  3 3 3 3  A 3
                      I: I U U 3  D D D D  A I
                      U: U U U 3  U U U U  A U
                      A: A A A A  A A A A  A D";

const SINK: &str = "D: I U U D  D D D D  A D
                    3: I U U 3  3 3 3 3  A 3
                    I: I U U 3  D D D D  A I
                    U: 3 U U 3  D D D D  A U
                    A: A A A A  A A A A  A D";

/// The calls that lead a session from its opening to a state.
fn way_to(state: &str) -> &[&str] {
    match state {
        "D" => &[],
        "3" => &[
            "0 100 receive cc init my=5 your=17",
            "0 100 receive cc admin-down my=5 your=17",
        ],
        "I" => &["0 100 receive cc down my=5 your=17"],
        "U" => &["0 100 receive cc init my=5 your=17"],
        _ => &["0 100 lock"],
    }
}

/// The state of label 100 behind an opening in a mode and these calls.
fn state_behind(mode: u8, calls: &[&str]) -> &'static str {
    let open = format!("0 100 open my=17 follow-link-down follow-lock mode={mode}");
    let mut table = Table::new();
    for line in [open.as_str()].iter().chain(calls) {
        let Line::Call(call) = list::line_of(line).unwrap() else {
            panic!("no call: {line}");
        };
        table.perform_with(&call.record(), call.beside);
    }
    let session = table.session(100).unwrap();
    match session.state {
        State::AdminDown => "A",
        State::Down if session.taken_down_by_peer => "3",
        State::Down => "D",
        State::Init => "I",
        State::Up => "U",
    }
}

fn every_cell_is_as_drawn(mode: u8, rows: &str) {
    for row in rows.lines() {
        let (state, cells) = row.trim().split_once(':').unwrap();
        let cells: Vec<&str> = cells.split_whitespace().collect();
        assert_eq!(cells.len(), INPUTS.len());
        assert_eq!(state_behind(mode, way_to(state)), state);
        for (input, cell) in INPUTS.iter().zip(cells) {
            let calls = [way_to(state), &[input]].concat();
            assert_eq!(state_behind(mode, &calls), cell, "{state}, {input}");
        }
    }
}

#[test]
fn coordinated_moves_by_figure_7() {
    every_cell_is_as_drawn(0, COORDINATED);
}

#[test]
fn source_moves_by_figure_8() {
    every_cell_is_as_drawn(1, SOURCE);
}

#[test]
fn sink_moves_by_figure_9() {
    every_cell_is_as_drawn(2, SINK);
}

/// Plays a list and holds it to its answers.
fn holds(text: &str) {
    let played = list::play(&list::read(text).unwrap());
    assert!(played.calls > 0);
    assert_eq!(played.wrong, Vec::<String>::new());
}

#[test]
fn a_mode_above_2_is_refused_behind_1_and_before_11() {
    holds(
        "1 100 open my=17 mode=3   => 10
         1 100 open my=17 mode=255 => 10
         1 100 open my=17 mode=2   => 0
         0 100 open my=17 mode=3   => 1
         1 100 open my=17 mode=3   => 10
         1 100 open my=17 mode=1   => 11",
    );
}

#[test]
fn a_stored_mode_above_2_is_26() {
    holds(
        "0 100 open my=17 mode=1 => 0
         spoil 0 mode 3
         - 100 report            => 26
         spoil 0 mode 2
         - 100 report            => 0 1 0 0 0 0 0 0",
    );
}

#[test]
fn only_a_coordinated_session_is_held_down() {
    for (mode, state) in [(0, 1), (2, 3)] {
        holds(&format!(
            "0 100 open my=17 follow-link-down mode={mode} => 0
             0 100 receive cc init my=5 your=17            => 0
             0 100 receive ais L                           => 0
             - 100 report                                  => 0 1 0 0 0 0 0 1
             0 100 receive cc init my=5 your=17            => 0
             - 100 report                                  => 0 {state} 0 0 0 0 0 1"
        ));
    }
}

#[test]
fn a_source_in_up_is_crossed_and_stays() {
    holds(
        "0 100 open my=17 mode=1            => 0
         0 100 receive cc init my=5 your=17 => 0
         0 100 receive cc up my=5 your=99   => 0
         - 100 report                       => 0 3 1 0 0 0 1 0
         - 100 write-cc                     => 0 1000002229c003180000001100000005000f42400000000000000000",
    );
}

#[test]
fn a_source_in_up_has_no_loss_and_rdi_does_not_age() {
    holds(
        "         0 100 open my=17 mode=1                  => 0
                  0 100 receive cc init my=5 your=17 diag=1 => 0
          9,000,000   - tick                             => 0
                  - 100 report                           => 0 3 0 0 0 1 0 0
                  - 100 write-cc                         => 0 1000002220c003180000001100000005000f42400000000000000000
          9,000,000 100 receive cc admin-down my=5 your=17 => 0
                  - 100 report                           => 0 1 0 0 0 0 0 0
         12,000,001   - tick                             => 0
                  - 100 report                           => 0 1 0 1 1 0 0 0",
    );
}

#[test]
fn a_source_in_init_is_timed() {
    holds(
        "        0 100 open my=17 mode=1            => 0
                 0 100 receive cc down my=5 your=17 => 0
         3,000,001   - tick                         => 0
                 - 100 report                       => 0 1 0 1 1 0 0 0",
    );
}

#[test]
fn a_source_asks_for_nothing_in_every_state() {
    let words = [
        (0, "000f4240000f424000000000"),
        (1, "000f42400000000000000000"),
        (2, "000f4240000f424000000000"),
    ];
    for (mode, intervals) in words {
        holds(&format!(
            "0 100 open my=17 mode={mode} => 0
             - 100 write-cc => 0 10000022204003180000001100000000{intervals}
             - 100 write-cv => 0 10000023204003180000001100000000{intervals}0001000c000000010000000a00010001
             0 100 lock     => 0
             - 100 write-cc => 0 10000022270003180000001100000000{intervals}"
        ));
    }
}

/// What `why` says of the loss of label 100 in a mode, opened at 0, that hears
/// a CC of a state at 0 and then nothing up to 9,000,000.
fn loss_in(mode: Mode, state: u8) -> bool {
    let event = |number, time, label, kind, body: &[u8]| Event {
        number,
        time,
        label,
        kind,
        body: body.into(),
        mode,
        accepted: true,
    };
    let settings = peer::capture::open_body(DISCRIMINATOR, 1_000_000, 1, OWN, EXPECTED, 0);
    let events = [
        event(1, 0, LABEL, Kind::Open, &settings),
        event(2, 0, LABEL, Kind::Receive, &cc(state, DISCRIMINATOR)),
        event(3, 9_000_000, 0, Kind::Tick, &[]),
    ];
    let front = Front {
        events: &events,
        damage: None,
    };
    let question = Question::of(&["100", "loss"]).unwrap();
    matches!(answer(&front, &question), Answer::Because(_))
}

#[test]
fn why_knows_no_loss_of_a_source_in_up() {
    for mode in [Mode::COORDINATED, Mode::SOURCE, Mode::SINK] {
        assert!(loss_in(mode, DOWN));
        assert_eq!(loss_in(mode, INIT), mode != Mode::SOURCE);
    }
}
