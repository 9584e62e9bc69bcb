//! Two operators on one table: whose label it is, who calls, and that neither
//! sees what the other does.

use peer::capture::{Kind, Next, Reader};
use peer::list::{self, Call, Line};
use peer::make;
use peer::party::Party;
use peer::random::Random;
use peer::table::{Answer, Beside, Table};

/// Plays a list from an empty table; every call is answered as it says.
fn holds(calls: &str) {
    let played = list::play(&list::read(calls).unwrap());
    assert!(played.calls > 0);
    assert!(played.wrong.is_empty(), "{:?}", played.wrong);
}

/// The opens of so many sessions of a party, with discriminators from 1 on.
fn filled(first: u32, count: u32) -> String {
    let open = |n| format!("0 {} open my={} => 0\n", first + n, 1 + n);
    (0..count).map(open).collect()
}

#[test]
fn a_label_of_the_other_party_is_not_open_to_the_caller() {
    for (own, other, label) in [(0, 1, 499_999), (1, 0, 500_000)] {
        for named in [other, 2, 255, 256, u32::MAX] {
            holds(&format!(
                "0 {label} open my=17 party={own} => 0
                 0 {label} receive cc init my=9 your=17 poll => 0
                 5 - tick => 0
                 4 {label} close party={named} => 1
                 5 {label} close party={named} => 2
                 5 {label} lock party={named} => 2
                 5 {label} unlock party={named} => 2
                 5 {label} receive cc up my=9 your=17 party={named} => 2
                 5 {label} receive party={named} => 2
                 - {label} report party={named} => 2
                 - {label} write-cc party={named} => 2
                 - {label} write-cv party={named} => 2
                 3,000,001 {label} lock party={named} => 2
                 - {label} report party={own} => 0 3 0 0 0 0 0 0
                 - {label} write-cc party={own} => 0 1000002220d003180000001100000009000f4240000f424000000000
                 5 {label} close party={own} => 0"
            ));
        }
    }
}

#[test]
fn an_open_of_the_other_party_s_label_is_10_behind_1_and_before_11() {
    holds(
        "0 499,999 open my=17 => 0
         5 - tick => 0
         4 499,999 open my=18 party=1 => 1
         5 499,999 open my=18 party=1 => 10
         5 499,999 open my=17 party=1 => 10
         5 499,998 open my=18 party=1 => 10
         5 500,000 open my=18 party=0 => 10
         5 500,000 open my=17 party=0 => 10
         5 500,000 open my=17 party=2 => 10
         5 1,048,576 open my=17 => 10
         5 500,000 open my=17 party=1 => 0",
    );
}

#[test]
fn a_party_is_full_by_its_own_alone() {
    for (first, other) in [(1_000, 501_000), (501_000, 1_000)] {
        let wrong = u32::from(first < other);
        holds(&format!(
            "{}0 {free} open my=99 => 12
             0 {free} open my=32 => 11
             0 {free} open my=0 => 10
             0 {free} open my=99 party={wrong} => 10
             {}0 {free} open my=99 => 12
             0 {other} close => 0
             0 {free} open my=99 => 12
             0 {first} close => 0
             0 {free} open my=99 => 0",
            filled(first, 32),
            filled(other, 32),
            free = first + 100,
        ));
    }
}

/// What a broken host leaves is 26 whoever calls, for the other party too.
#[test]
fn a_row_is_in_order_party_by_party() {
    let start = filled(1_000, 32) + &filled(501_000, 3);
    for (spoiled, answer) in [
        ("spoil 34 my 3", 0),
        ("spoil 34 my 4", 0),
        ("spoil 34 my 2", 26),
        ("spoil 31 my 31", 26),
        ("spoil 31 label 1,000", 26),
        ("spoil 34 label 501,000", 26),
        // With a discriminator that ours lack it is one too many.
        ("spoil 34 my 50\nspoil 34 label 499,999", 26),
        ("spoil 31 my 50\nspoil 31 label 500,000", 0),
    ] {
        let calls = [0, 1].map(|party| format!("0 499,000 close party={party} => "));
        let [ours, theirs] = match answer {
            0 => calls.map(|call| call + "2"),
            _ => calls.map(|call| call + "26"),
        };
        holds(&format!(
            "{start}{spoiled}\n0 - tick => {answer}\n{ours}\n{theirs}"
        ));
    }
}

/// The calls of a made capture, here and there in the name of someone else than
/// the label's owner.
fn named_calls(seed: u64, random: &mut Random) -> Vec<Call> {
    let capture = make::capture(seed);
    let mut calls = Vec::new();
    let Some(mut reader) = Reader::start(&capture[..]).unwrap() else {
        return calls;
    };
    while let Next::Record(record) = reader.next_record().unwrap() {
        let mut beside = Beside::of(record.label);
        if random.chance(10) {
            beside.party = Party(random.pick(&[0, 1, 2]));
        }
        calls.push(Call {
            time: record.time,
            label: record.label,
            kind: record.kind,
            body: record.body.to_vec(),
            beside,
            answer: None,
        });
    }
    calls
}

/// What the calls of one party are answered in a run of all calls, and in one in
/// which a tick stands for what the other did before each of them.
fn answers(calls: &[Call], party: Party) -> [Vec<Answer>; 2] {
    let (mut all, mut alone) = (Table::new(), Table::new());
    let mut answers = [Vec::new(), Vec::new()];
    for call in calls {
        let before = all.clock();
        let answer = all.perform_with(&call.record(), call.beside);
        if call.beside.party == party && call.kind != Kind::Tick {
            let tick = list::line_of(&format!("{before} - tick")).unwrap();
            let Line::Call(tick) = tick else { panic!() };
            assert!(alone.perform(&tick.record()).is_accepted());
            answers[0].push(answer);
            answers[1].push(alone.perform_with(&call.record(), call.beside));
        }
    }
    answers
}

#[test]
fn one_party_is_answered_the_same_whatever_the_other_does() {
    let mut random = Random::new(153);
    let mut compared = 0;
    for seed in 1..=200 {
        let calls = named_calls(seed, &mut random);
        for party in [0, 1, 2].map(Party) {
            let [all, alone] = answers(&calls, party);
            assert!(all == alone, "seed {seed}, {party:?}");
            compared += all.len();
        }
    }
    assert!(compared > 50_000, "{compared}");
}
