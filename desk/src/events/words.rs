//! An event as a line of text, or as one object of JSON.

use super::clock::Epoch;
use super::{Cause, Event, What};

const STATES: [&str; 4] = ["ADMIN DOWN", "DOWN", "INIT", "UP"];

/// What changed, in words.
pub fn what(what: What) -> String {
    let (thing, begins) = match what {
        What::Opened => return "opened".to_string(),
        What::Closed => return "closed".to_string(),
        What::State(state) => return format!("state {}", state_name(state)),
        What::Loss(begins) => ("loss", begins),
        What::Alarm(begins) => ("alarm", begins),
        What::HeldBack(begins) => ("held-back alarm", begins),
        What::Crossing(begins) => ("crossing", begins),
        What::RemoteDefect(begins) => ("remote defect", begins),
    };
    format!("{thing} {}", if begins { "begins" } else { "ends" })
}

/// The name of a state by its number in a report.
fn state_name(state: u8) -> String {
    let name = STATES.get(usize::from(state));
    name.map_or_else(|| state.to_string(), |name| name.to_string())
}

pub fn text(event: &Event, epoch: Option<&Epoch>) -> String {
    let mut line = event.reading.to_string();
    if let Some(epoch) = epoch {
        line += &format!(" {}", epoch.wall_clock(event.reading));
    }
    let record = match event.record {
        Some(record) => format!("record {record}"),
        None => "no record".to_string(),
    };
    line += &format!(" label {}, {record}: {}", event.label, what(event.what));
    if let Some(cause) = &event.cause {
        line += &cause_text(cause);
    }
    line + "\n"
}

fn cause_text(cause: &Cause) -> String {
    let (record, reading, words) = (cause.record, cause.reading, &cause.words);
    let (age, ends) = (&cause.age, &cause.ends);
    format!("; which: record {record} at {reading}, {words}; how old: {age}; ends: {ends}")
}

/// One object in one line, with the names of the text for its fields.
pub fn json(event: &Event, epoch: Option<&Epoch>) -> String {
    let mut fields = vec![format!("\"reading\":{}", event.reading)];
    if let Some(epoch) = epoch {
        fields.push(format!(
            "\"time\":{}",
            quoted(&epoch.wall_clock(event.reading))
        ));
    }
    fields.push(format!("\"label\":{}", event.label));
    let record = event
        .record
        .map_or_else(|| "null".to_string(), |record| record.to_string());
    fields.push(format!("\"record\":{record}"));
    fields.push(format!("\"what\":{}", quoted(&what(event.what))));
    if let Some(cause) = &event.cause {
        let (record, reading, words) = (cause.record, cause.reading, quoted(&cause.words));
        fields.push(format!(
            "\"which\":{{\"record\":{record},\"reading\":{reading},\"words\":{words}}}"
        ));
        fields.push(format!("\"how old\":{}", quoted(&cause.age)));
        fields.push(format!("\"ends\":{}", quoted(&cause.ends)));
    }
    format!("{{{}}}\n", fields.join(","))
}

/// A string of JSON.
fn quoted(text: &str) -> String {
    let mut quoted = String::from("\"");
    for character in text.chars() {
        match character {
            '"' | '\\' => quoted.extend(['\\', character]),
            control if control < ' ' => quoted += &format!("\\u{:04x}", u32::from(control)),
            other => quoted.push(other),
        }
    }
    quoted + "\""
}

#[cfg(test)]
mod tests {
    use super::*;

    #[test]
    fn strings_of_json_are_escaped() {
        assert_eq!(quoted("a\"b\\c\nd\u{1}é"), r#""a\"b\\c\u000ad\u0001é""#);
    }

    #[test]
    fn an_event_without_a_record_or_a_cause() {
        let event = Event {
            label: 100,
            reading: 7,
            record: None,
            what: What::State(0),
            cause: None,
        };
        assert_eq!(
            text(&event, None),
            "7 label 100, no record: state ADMIN DOWN\n"
        );
        let object =
            "{\"reading\":7,\"label\":100,\"record\":null,\"what\":\"state ADMIN DOWN\"}\n";
        assert_eq!(json(&event, None), object);
    }
}
