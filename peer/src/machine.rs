//! How a session moves: the machines of RFC 6428, Figures 7, 8 and 9.

use crate::message::State;

/// The mode of a session, by its number in the settings. A number that is no
/// mode is out of range.
#[derive(Clone, Copy, Debug, Default, PartialEq, Eq)]
pub struct Mode(pub u8);

impl Mode {
    /// Both directions in one session.
    pub const COORDINATED: Mode = Mode(0);
    /// One direction of an independent session: the end that sends.
    pub const SOURCE: Mode = Mode(1);
    /// The other direction of it: the end that receives.
    pub const SINK: Mode = Mode(2);

    pub fn is_in_range(self) -> bool {
        self.0 <= Mode::SINK.0
    }
}

/// What moves a session, apart from lock and unlock.
#[derive(Clone, Copy, Debug, PartialEq, Eq)]
pub enum Input {
    /// The state of a CC that was heard.
    Received(State),
    Timer,
    LinkDown,
    LockReport,
    Misconnected,
}

/// The state that an input leads to. ADMIN DOWN is left by an unlock alone.
pub fn next(mode: Mode, state: State, input: Input) -> State {
    match state {
        State::AdminDown => State::AdminDown,
        State::Down => from_down(mode, input),
        State::Init => from_init(input),
        State::Up if mode == Mode::SOURCE => from_up_of_source(input),
        State::Up => from_up(input),
    }
}

/// A sink comes up by a received UP too: its source may be UP before it.
fn from_down(mode: Mode, input: Input) -> State {
    match input {
        Input::Received(State::Down) => State::Init,
        Input::Received(State::Init) => State::Up,
        Input::Received(State::Up) if mode == Mode::SINK => State::Up,
        _ => State::Down,
    }
}

fn from_init(input: Input) -> State {
    match input {
        Input::Received(State::Down) => State::Init,
        Input::Received(State::Init | State::Up) => State::Up,
        _ => State::Down,
    }
}

fn from_up(input: Input) -> State {
    match input {
        Input::Received(State::Init | State::Up) => State::Up,
        _ => State::Down,
    }
}

/// A source watches nothing once it is UP: what fails on its way to the sink is
/// the sink's to say.
fn from_up_of_source(input: Input) -> State {
    match input {
        Input::Received(State::AdminDown) => State::Down,
        _ => State::Up,
    }
}
