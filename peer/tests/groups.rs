//! Dual-homing groups: when a PW is active, what is forwarded, and each refusal in
//! its order. Usually 100 is the service PW and 101 the DNI-PW of group 7, whose
//! peer is 55, all opened and set at 0 with a period of one second: the last
//! reading without a loss is 3,000,000.

mod common;

use common::{cc, Capture, DISCRIMINATOR, INIT, LABEL};
use peer::assemble::octets_of;
use peer::capture::Kind;
use peer::log::{records, turn::log_of};
use peer::refusal::Refusal;
use peer::{dhc, list, message};

/// Plays a list from an empty table; every call is answered as it says.
fn holds(calls: &str) {
    let played = list::play(&list::read(calls).unwrap());
    assert!(played.calls > 0);
    assert!(played.wrong.is_empty(), "{:?}\n{calls}", played.wrong);
}

const OPEN: &str = "0 100 open my=1 => 0
    0 101 open my=2 => 0
    0 102 open my=3 => 0
    0 600,000 open my=1 => 0
    0 600,001 open my=2 => 0\n";
const WORKING: &str = "0 100 group id=7 role=0 peer=55 dni=101 => 0\n";
const PROTECTION: &str = "0 100 group id=7 role=1 peer=55 dni=101 => 0\n";
/// The far end of the DNI-PW is heard, so that it is UP until 3,000,000.
const DNI_UP: &str = "0 101 receive cc init my=9 your=2 => 0\n";
const S: &str = "receive dhc group=7 switching=1/55/2/S";
const F: &str = "receive dhc group=7 status=1/55/2/F";

/// A list behind the opening of five labels.
fn holds_behind(start: &str, calls: &str) {
    holds(&format!("{OPEN}{start}{calls}"));
}

#[test]
fn every_call_with_a_reading_looks_for_a_loss() {
    for call in [
        "- tick",
        "103 open my=4",
        "101 close",
        "101 lock",
        "101 unlock",
        "600,000 lock",
        "101 receive cc down my=9",
        "101 receive ais",
        "100 receive ais",
        "100 receive cc down my=9",
        "100 receive cv down my=9",
        "100 lock",
        "100 unlock",
        "102 group id=8 role=1 peer=55 dni=100",
        "600,000 group id=7 role=1 peer=55 dni=600,001",
        "- ac id=7 ac=0",
        "101 receive dhc group=7 status=1/55/2",
    ] {
        for (reading, pw) in [(3_000_000, 1), (3_000_001, 0)] {
            let told = if pw == 1 { "1 0 0" } else { "0 0 0" };
            let calls = format!("{reading} {call} => 0\n- - ask id=7 => 0 {told}");
            holds_behind(WORKING, &calls);
        }
    }
}

/// A CC, a lock or an unlock of the service PW ends a loss, but not before it took
/// the PW; and nothing but return gives it back.
#[test]
fn the_loss_comes_before_what_ends_it() {
    for end in [
        "100 receive cc init my=9 your=1 => 0",
        "100 lock => 0\n3,000,001 100 unlock => 0",
    ] {
        holds_behind(
            WORKING,
            &format!(
                "3,000,001 {end}
                 - - ask id=7 => 0 0 0 0
                 - 100 report => 0 {} 0 0 0 0 0 0
                 3,000,002 - tick => 0
                 - - ask id=7 => 0 0 0 0
                 3,000,002 - return id=7 => 0
                 - - ask id=7 => 0 1 0 0",
                if end.contains("lock") { 1 } else { 3 }
            ),
        );
    }
}

#[test]
fn a_locked_service_pw_has_no_loss() {
    holds_behind(
        WORKING,
        "3,000,000 100 lock => 0
         9,000,000 - tick => 0
         - - ask id=7 => 0 1 0 0
         9,000,000 - return id=7 => 0
         - - ask id=7 => 0 1 0 0
         9,000,000 100 unlock => 0
         12,000,000 - tick => 0
         - - ask id=7 => 0 1 0 0
         12,000,001 - tick => 0
         - - ask id=7 => 0 0 0 0",
    );
}

/// A refused call, a report, a message written and an ask bring no reading.
#[test]
fn what_is_refused_looks_for_no_loss() {
    for call in [
        "101 receive dhc group=8 switching=1/55/2/S => 24",
        "101 receive dhc group=7 => 25",
        "101 receive dhc group=7 cut=9 => 3 9",
        "- ac id=8 ac=1 => 24",
        "- return id=8 => 24",
        "100 group id=8 role=0 peer=55 dni=101 => 11",
        "102 group id=8 role=0 peer=55 dni=102 => 10",
        "999 close => 2",
        "- ask id=7 => 0 1 0 0",
        "100 report => 0 1 0 0 0 0 0 0",
        "100 write-cc => 0 10000022204003180000000100000000000f4240000f424000000000",
    ] {
        holds_behind(
            WORKING,
            &format!(
                "3,000,001 {call}
                 - - ask id=7 => 0 1 0 0
                 0 100 receive cc init my=9 your=1 => 0
                 3,000,000 - tick => 0
                 - - ask id=7 => 0 1 0 0"
            ),
        );
    }
}

#[test]
fn the_edges_of_a_crossing() {
    for crossed in ["cc down my=9 your=9", "cv down my=9 mep=1/20/1/2"] {
        holds_behind(
            WORKING,
            &format!(
                "- - ask id=7 => 0 1 0 0
                 0 100 receive {crossed} => 0
                 - - ask id=7 => 0 0 0 0
                 3,000,000 100 receive cc down my=9 => 0
                 3,499,999 - return id=7 => 0
                 - - ask id=7 => 0 0 0 0
                 3,500,000 - tick => 0
                 - - ask id=7 => 0 0 0 0
                 3,500,000 - return id=7 => 0
                 - - ask id=7 => 0 1 0 0"
            ),
        );
    }
}

/// On another label a crossed message is nothing to the group.
#[test]
fn crossed_elsewhere() {
    holds_behind(
        WORKING,
        "0 101 receive cc down my=9 your=9 => 0
         0 102 receive cc down my=9 your=9 => 0
         0 600,000 receive cc down my=9 your=9 => 0
         0 100 receive ais L => 0
         0 100 receive cc down my=9 your=1 => 0
         - - ask id=7 => 0 1 0 0",
    );
}

#[test]
fn set_under_a_loss_or_a_crossing() {
    for (role, clear) in [(0, 1), (1, 0)] {
        for (reading, first, pw) in [
            (3_000_000, "0 - tick", clear),
            (3_000_001, "0 - tick", 0),
            (3_499_999, "3,000,000 100 receive cc down my=9", 0),
            (3_500_000, "3,000,000 100 receive cc down my=9", clear),
        ] {
            let crossed = match reading > 3_400_000 {
                true => "0 100 receive cc down my=9 your=9 => 0\n",
                false => "",
            };
            holds_behind(
                crossed,
                &format!(
                    "{first} => 0
                     {reading} 100 group id=7 role={role} peer=55 dni=101 => 0
                     - - ask id=7 => 0 {pw} 0 0"
                ),
            );
        }
    }
}

#[test]
fn what_dhc_messages_do_to_a_working_pe() {
    for (message, pw) in [
        ("status=1/55/2", 1),
        ("status=1/55/2/PDF", 1),
        ("switching=1/55/2", 1),
        ("switching=1/55/2/P", 1),
        ("status=1/55/2/F switching=1/55/2/P", 1),
        ("switching=1/55/2/S", 0),
        ("switching=9/55/9/SP", 0),
        ("status=1/55/2 switching=1/55/2/S", 0),
        ("switching=1/55/2/S status=1/55/2/D pad=0001", 0),
    ] {
        holds_behind(
            WORKING,
            &format!(
                "1 101 receive dhc group=7 {message} => 0
                 - - ask id=7 => 0 {pw} 0 0
                 1 101 receive dhc group=7 status=1/55/2 => 0
                 - - ask id=7 => 0 {pw} 0 0
                 1 - return id=7 => 0
                 - - ask id=7 => 0 1 0 0"
            ),
        );
    }
}

#[test]
fn what_dhc_messages_do_to_a_protection_pe() {
    for (message, pw) in [
        ("status=1/55/2", 0),
        ("status=1/55/2/PD", 0),
        ("switching=1/55/2/P", 0),
        ("status=1/55/2/D switching=1/55/2/P", 0),
        ("status=1/55/2/F", 1),
        ("status=1/55/2/F switching=1/55/2", 1),
        ("switching=1/55/2/S", 1),
        ("status=1/55/2 switching=1/55/2/S", 1),
    ] {
        holds_behind(
            PROTECTION,
            &format!(
                "- - ask id=7 => 0 0 0 0
                 1 101 receive dhc group=7 {message} => 0
                 - - ask id=7 => 0 {pw} 0 0
                 1 101 receive dhc group=7 status=1/55/2 => 0
                 - - ask id=7 => 0 {pw} 0 0
                 1 - return id=7 => 0
                 - - ask id=7 => 0 0 0 0"
            ),
        );
    }
}

/// Neither a loss nor a crossing of its own PW makes it standby, and it is made
/// active while they stand.
#[test]
fn a_protection_pe_keeps_its_pw() {
    holds_behind(
        PROTECTION,
        &format!(
            "3,000,001 101 {F} => 0
             - - ask id=7 => 0 1 0 0
             - 100 report => 0 1 0 1 1 0 0 0
             3,000,001 100 receive cc down my=9 your=9 => 0
             4,000,000 - tick => 0
             - - ask id=7 => 0 1 0 0
             4,000,000 - return id=7 => 0
             - - ask id=7 => 0 0 0 0
             4,000,000 101 {S} => 0
             - - ask id=7 => 0 1 0 0"
        ),
    );
}

/// Switching before Status, others among them, reserved octets and bits set.
#[test]
fn tlvs_in_any_order() {
    let switching = "0002001000000001000000370000000200000002";
    let status = "000100140000000100000037000000020000000000000001";
    let other = "0003000101";
    for (tlvs, total) in [
        (format!("{switching}{status}"), 44),
        (format!("{other}{switching}"), 25),
        (format!("{status}{other}{switching}"), 49),
        (format!("{switching}{other}"), 25),
    ] {
        let message = format!("10ff000900000007{total:04x}ffff{tlvs}");
        holds_behind(
            WORKING,
            &format!("0 101 receive hex {message} => 0\n- - ask id=7 => 0 0 0 0"),
        );
    }
    let all_bits = "10000009000000070014000000020010000000010000003700000002fffffffd";
    holds_behind(
        WORKING,
        &format!("0 101 receive hex {all_bits} => 0\n- - ask id=7 => 0 1 0 0"),
    );
}

#[test]
fn table_1_by_how_the_dni_pw_is() {
    for (made, up) in [
        ("", false),
        ("0 101 receive cc down my=9 => 0\n", false),
        (DNI_UP, true),
        (
            "0 101 receive cc init my=9 your=2 => 0\n0 101 lock => 0\n",
            false,
        ),
        (
            "0 101 receive cc init my=9 your=2 => 0\n0 101 close => 0\n",
            false,
        ),
    ] {
        let [pw_alone, ac_alone] = if up { [2, 3] } else { [0, 0] };
        holds_behind(
            &format!("{WORKING}{made}"),
            &format!(
                "- - ask id=7 => 0 1 0 {pw_alone}
                 0 - ac id=7 ac=1 => 0
                 - - ask id=7 => 0 1 1 1
                 0 100 receive cc down my=9 your=9 => 0
                 - - ask id=7 => 0 0 1 {ac_alone}
                 0 - ac id=7 ac=0 => 0
                 - - ask id=7 => 0 0 0 0"
            ),
        );
    }
}

/// The DNI-PW is up at the clock: a loss takes it down before anyone asks.
#[test]
fn the_dni_pw_is_lost() {
    holds_behind(
        &format!("{WORKING}{DNI_UP}"),
        "3,000,000 100 receive cc down my=9 => 0
         - - ask id=7 => 0 1 0 2
         3,000,001 - tick => 0
         - - ask id=7 => 0 1 0 0",
    );
}

#[test]
fn the_dni_pw_closed_and_opened_again() {
    holds_behind(
        &format!("{WORKING}{DNI_UP}"),
        &format!(
            "1 101 close => 0
             - - ask id=7 => 0 1 0 0
             1 101 {S} => 2
             1 103 open my=2 => 0
             1 103 receive cc init my=9 your=2 => 0
             1 103 {S} => 24
             - - ask id=7 => 0 1 0 0
             1 101 open my=77 period=5,000,000 mode=2 => 0
             - - ask id=7 => 0 1 0 0
             1 101 receive cc up my=9 your=77 => 0
             - - ask id=7 => 0 1 0 2
             1 101 {S} => 0
             - - ask id=7 => 0 0 0 0"
        ),
    );
}

#[test]
fn the_service_pw_closed_and_opened_again() {
    holds_behind(
        WORKING,
        &format!(
            "1 100 close => 0
             - - ask id=7 => 24
             1 - ac id=7 ac=1 => 24
             1 - return id=7 => 24
             1 101 {S} => 24
             1 103 open my=4 => 0
             - - ask id=7 => 24
             1 103 group id=7 role=1 peer=56 dni=102 => 0
             - - ask id=7 => 0 0 0 0
             1 100 open my=1 => 0
             1 100 group id=7 role=0 peer=55 dni=101 => 11
             1 100 group id=8 role=0 peer=55 dni=101 => 0
             - - ask id=8 => 0 1 0 0
             1 101 {S} => 24
             - - ask id=8 => 0 1 0 0"
        ),
    );
}

/// 26 is among the spoiled fields, below.
#[test]
fn refusals_of_setting_in_order() {
    holds_behind(
        "10 - tick => 0\n",
        "9 999 group id=7 role=0 peer=55 dni=999 => 1
         9,223,372,036,854,775,808 100 group id=7 role=0 peer=55 dni=101 => 1
         10 999 group id=7 role=0 peer=55 dni=101 => 2
         10 100 group id=7 role=0 peer=55 dni=999 => 2
         10 999 group id=7 role=0 peer=55 dni=999 => 2
         10 0 group id=7 role=0 peer=55 dni=0 => 2
         10 100 group id=7 role=0 peer=55 dni=600,000 => 2
         10 600,000 group id=7 role=0 peer=55 dni=101 => 2
         10 100 group id=7 role=0 peer=55 dni=101 party=1 => 2
         10 100 group id=7 role=0 peer=55 dni=101 party=2 => 2
         10 100 group id=7 role=0 peer=55 dni=100 => 10
         - - ask id=7 => 24
         10 100 group id=7 role=0 peer=55 dni=101 => 0
         9 100 group id=7 role=0 peer=55 dni=101 => 1
         10 100 group id=8 role=0 peer=55 dni=999 => 2
         10 100 group id=8 role=0 peer=55 dni=100 => 10
         10 100 group id=8 role=0 peer=55 dni=102 => 11
         10 101 group id=7 role=0 peer=55 dni=102 => 11
         10 102 group id=7 role=0 peer=55 dni=102 => 10
         10 600,000 group id=7 role=0 peer=55 dni=600,001 => 0",
    );
}

#[test]
fn refusals_of_ac_return_and_ask_in_order() {
    holds_behind(
        WORKING,
        "10 - tick => 0
         9 - ac id=8 ac=1 => 1
         9 - return id=8 => 1
         9,223,372,036,854,775,808 - ac id=7 ac=1 => 1
         10 - ac id=8 ac=1 => 24
         10 - return id=8 => 24
         - - ask id=8 => 24
         10 - ac id=7 ac=1 party=1 => 24
         10 - return id=7 party=1 => 24
         - - ask id=7 party=1 => 24
         - - ask id=7 party=2 => 24
         10 - ac id=7 ac=1 party=255 => 24
         - - ask id=7 => 0 1 0 0
         10 - ac id=7 ac=1 => 0
         9,223,372,036,854,775,807 - return id=7 => 0
         - - ask id=7 => 0 0 1 0",
    );
}

#[test]
fn refusals_of_dhc_messages_in_order() {
    holds_behind(
        WORKING,
        "10 - tick => 0
         9 999 receive dhc group=9 => 1
         10 999 receive dhc group=9 => 2
         10 101 receive dhc group=9 party=1 => 2
         10 101 receive dhc group=9 cut=3 => 3 3
         10 101 receive dhc group=9 nibble=0 cut=8 => 4 0
         10 101 receive dhc group=9 gach-version=1 => 4 0
         10 101 receive dhc group=9 channel=8 cut=8 => 5 2
         10 101 receive dhc group=9 channel=0x0900 => 5 2
         10 101 receive dhc group=9 cut=4 => 3 4
         10 101 receive dhc group=9 cut=11 => 3 11
         10 101 receive dhc group=9 total=1 => 3 12
         10 101 receive dhc group=9 status=1/56/2 status=1/56/2 total=49 => 3 60
         10 101 receive dhc group=9 status=1/56/2 status=1/56/2 => 25
         10 101 receive dhc group=9 switching=1/56/2 switching=1/56/2 => 25
         10 101 receive dhc group=9 => 25
         10 101 receive dhc group=9 tlv=00030000 => 25
         10 101 receive dhc group=9 status=1/56/2 tlv=00 => 25
         10 101 receive dhc group=9 status=1/56/2 tlv=00030001 => 25
         10 101 receive dhc group=9 tlv=000100130000000000000000000000000000000000000000 => 25
         10 101 receive dhc group=9 status=1/55/2 => 24
         10 100 receive dhc group=7 status=1/55/2 => 24
         10 102 receive dhc group=7 status=1/55/2 => 24
         10 600,001 receive dhc group=7 status=1/55/2 => 24
         10 101 receive dhc group=7 status=1/56/2/F => 24
         10 101 receive dhc group=7 status=1/55/2 switching=1/56/2/S => 24
         10 101 receive dhc group=7 status=1/56/2 switching=1/55/2/S => 24
         - - ask id=7 => 0 1 0 0
         10 101 receive dhc group=7 status=1/55/2 => 0",
    );
}

/// It is neither refused by a lock nor heard, and leaves its own label alone.
#[test]
fn a_dhc_message_is_no_bfd_message() {
    let report = "- 101 report => 0 3 0 0 0 0 0 0";
    holds_behind(
        &format!("{WORKING}{DNI_UP}"),
        &format!(
            "2,000,000 101 {F} => 0
             {report}
             3,000,000 101 {F} => 0
             {report}
             3,000,001 101 {F} => 0
             - 101 report => 0 1 0 1 1 0 0 0
             3,000,001 101 lock => 0
             3,000,001 101 {S} => 0
             3,000,001 101 receive cc down my=9 => 14
             - 101 report => 0 0 0 0 0 0 0 0"
        ),
    );
}

/// What is changed, and what changes it back.
const SPOILED: [(&str, &str); 17] = [
    ("group 2", "group 1"),
    ("group 255", "group 1"),
    ("group-role 2", "group-role 0"),
    ("group-role 255", "group-role 0"),
    ("group-pw 2", "group-pw 1"),
    ("group-pw 255", "group-pw 1"),
    ("group-ac 2", "group-ac 0"),
    ("group-ac 255", "group-ac 0"),
    ("group-dni 0", "group-dni 101"),
    ("group-dni 15", "group-dni 101"),
    ("group-dni 100", "group-dni 101"),
    ("group-dni 500,000", "group-dni 101"),
    ("group-dni 600,001", "group-dni 101"),
    ("group-dni 1,048,575", "group-dni 101"),
    ("group-dni 1,048,576", "group-dni 101"),
    ("group-dni 4,294,967,295", "group-dni 101"),
    ("group-id 8", "group-id 7"),
];

#[test]
fn each_spoiled_field_is_26_whoever_calls() {
    let second = "0 102 group id=8 role=0 peer=55 dni=101 => 0\n";
    for (spoiled, back) in SPOILED {
        holds_behind(
            &format!("{WORKING}{second}"),
            &format!(
                "5 - tick => 0
                 spoil 0 {spoiled}
                 4 999 group id=7 role=0 peer=55 dni=999 => 26
                 5 - ac id=7 ac=1 => 26
                 4 - return id=9 => 26
                 - - ask id=7 => 26
                 - - ask id=9 party=1 => 26
                 5 101 {S} => 26
                 5 999 receive dhc group=7 => 26
                 5 600,000 lock => 26
                 - 600,000 report => 26
                 5 - tick => 26
                 spoil 0 {back}
                 5 - tick => 0
                 - - ask id=7 => 0 1 0 0"
            ),
        );
    }
}

#[test]
fn what_is_free_in_a_record() {
    for (changed, id) in [
        ("group-id 0", 0),
        ("group-id 4,294,967,295", u32::MAX),
        ("group-peer 0", 7),
        ("group-peer 4,294,967,295", 7),
        ("group-dni 16", 7),
        ("group-dni 499,999", 7),
        ("group-dni 102", 7),
    ] {
        // The same ID in the other party is another group's.
        let other = format!("0 600,000 group id={id} role=0 peer=55 dni=600,001 => 0\n");
        holds_behind(
            &format!("{WORKING}{other}"),
            &format!("spoil 0 {changed}\n0 - tick => 0\n- - ask id={id} => 0 1 0 0"),
        );
    }
    holds_behind(
        WORKING,
        "0 102 group id=8 role=0 peer=55 dni=101 => 0
         spoil 0 group 0
         spoil 0 group-role 9
         spoil 0 group-pw 9
         spoil 0 group-ac 9
         spoil 0 group-dni 100
         spoil 0 group-id 8
         0 - tick => 0
         - - ask id=7 => 24
         - - ask id=8 => 0 1 0 0
         0 100 group id=7 role=1 peer=55 dni=101 => 0
         - - ask id=7 => 0 0 0 0",
    );
}

#[test]
fn several_groups_on_one_dni_pw_and_in_a_ring() {
    holds_behind(
        WORKING,
        &format!(
            "0 102 group id=8 role=1 peer=56 dni=101 => 0
             0 101 group id=9 role=0 peer=57 dni=100 => 0
             0 101 {S} => 0
             - - ask id=7 => 0 0 0 0
             - - ask id=8 => 0 0 0 0
             - - ask id=9 => 0 1 0 0
             0 101 receive dhc group=8 status=1/55/2/F => 24
             0 101 receive dhc group=8 status=1/56/2/F => 0
             - - ask id=8 => 0 1 0 0
             0 101 receive dhc group=9 switching=1/57/2/S => 24
             0 100 receive dhc group=9 switching=1/57/2/S => 0
             - - ask id=9 => 0 0 0 0
             0 - return id=9 => 0
             0 101 receive cc down my=9 your=9 => 0
             - - ask id=9 => 0 0 0 0
             - - ask id=8 => 0 1 0 0"
        ),
    );
}

#[test]
fn groups_of_two_parties() {
    holds_behind(
        WORKING,
        &format!(
            "0 600,000 group id=7 role=1 peer=55 dni=600,001 => 0
             0 600,001 {S} => 0
             - - ask id=7 => 0 1 0 0
             - - ask id=7 party=1 => 0 1 0 0
             0 - ac id=7 ac=1 party=1 => 0
             - - ask id=7 => 0 1 0 0
             - - ask id=7 party=1 => 0 1 1 1
             0 - return id=7 party=1 => 0
             - - ask id=7 => 0 1 0 0
             - - ask id=7 party=1 => 0 0 1 0
             3,000,001 - ac id=7 ac=0 party=1 => 0
             - - ask id=7 => 0 0 0 0"
        ),
    );
}

/// A source in UP has no loss, as service PW and as DNI-PW; crossed it stays UP,
/// and the PW is given up all the same.
#[test]
fn a_source_in_up() {
    holds(
        "0 100 open my=1 mode=1 => 0
         0 101 open my=2 mode=1 => 0
         0 100 receive cc init my=9 your=1 => 0
         0 101 receive cc init my=9 your=2 => 0
         0 100 group id=7 role=0 peer=55 dni=101 => 0
         90,000,000 - tick => 0
         - - ask id=7 => 0 1 0 2
         90,000,000 - return id=7 => 0
         - - ask id=7 => 0 1 0 2
         90,000,000 100 receive cc up my=9 your=9 => 0
         - 100 report => 0 3 1 0 0 0 1 0
         - - ask id=7 => 0 0 0 0
         90,000,000 101 receive cc up my=9 your=9 => 0
         90,000,000 - ac id=7 ac=1 => 0
         - - ask id=7 => 0 0 1 3",
    );
}

#[test]
fn no_number_of_a_role_or_an_ac_is_refused() {
    for number in [1, 2, 128, 255] {
        holds_behind(
            "",
            &format!(
                "0 100 group id=0 role={number} peer=0 dni=101 => 0
                 - - ask id=0 => 0 0 0 0
                 0 - ac id=0 ac={number} => 0
                 0 101 receive dhc group=0 status=1/0/2/F => 0
                 - - ask id=0 => 0 1 1 1"
            ),
        );
    }
}

/// The group goes with the call's reading, not with an earlier one.
#[test]
fn group_calls_bring_the_clock_on() {
    for call in [
        "102 group id=8 role=0 peer=55 dni=101",
        "- ac id=7 ac=0",
        "- return id=7",
        "101 receive dhc group=7 status=1/55/2",
    ] {
        holds_behind(WORKING, &format!("9 {call} => 0\n8 - tick => 1"));
    }
}

/// A status with signal fail, whole.
fn status() -> Vec<u8> {
    octets_of("100000090000000700180000000100140000000100000037000000020000000000000001").unwrap()
}

/// The same without its TLV.
fn without_tlvs() -> Vec<u8> {
    let mut octets = status()[..12].to_vec();
    octets[9] = 0;
    octets
}

/// No record of a capture sets a group: a good message is 24, in both modes of
/// `watch`. A place stands behind 3, 4 and 5 alone, and the clock does not move.
#[test]
fn dhc_messages_in_a_capture() {
    let good = status();
    let capture = Capture::new()
        .open(0, 0)
        .receive(3_000_001, &good)
        .receive(3_000_001, &good[..35])
        .receive(3_000_001, &good[..11])
        .receive(3_000_001, &without_tlvs())
        .receive(3_000_001, &[0, 0, 0, 9])
        .receive(3_000_001, &[16, 0, 0, 10])
        .call(Kind::Receive, 3_000_001, 999, &good)
        .call(Kind::Receive, u64::MAX, LABEL, &good)
        .receive(0, &cc(INIT, DISCRIMINATOR))
        .report()
        .lock(1)
        .receive(1, &good);
    capture.prints(&[
        "1 0",
        "2 24",
        "3 3 35",
        "4 3 11",
        "5 25",
        "6 4 0",
        "7 5 2",
        "8 2",
        "9 1",
        "10 0",
        "11 0 3 0 0 0 0 0 0",
        "12 0",
        "13 24",
    ]);
}

#[test]
fn dhc_messages_in_a_log() {
    let capture = Capture::new()
        .open(0, 0)
        .receive(1, &status())
        .receive(1, &status()[..9])
        .receive(1, &without_tlvs());
    let log = log_of(&capture.octets).unwrap();
    let logged = records::all(&log).unwrap();
    let answers: Vec<u16> = logged.iter().map(|logged| logged.answer).collect();
    assert_eq!(answers, [0, 24, 3, 25]);
}

/// A reader of another kind keeps its 5, and so does that of DHC messages.
#[test]
fn readers_of_one_kind() {
    assert_eq!(message::read(&status()), Err(Refusal::ChannelType.at(2)));
    let other = cc(INIT, DISCRIMINATOR);
    assert_eq!(dhc::read(&other), Err(Refusal::ChannelType.at(2)));
}

#[test]
fn lines_spelled_out() {
    let list = "9 600,000 group dni=600,001 peer=0x37 role=2 id=7 => 11 # taken
        1,000 - ac id=7 ac=255 party=2
        5 77 return id=4,294,967,295 => 0
        - - ask id=7 party=1 => 0 1 0   2
        spoil 3 group-dni 16";
    let spelled = "9 600000 group party=1 id=7 role=2 peer=55 dni=600001 => 11
1000 0 ac party=2 id=7 ac=255
5 0 return party=0 id=4294967295 => 0
0 0 ask party=1 id=7 => 0 1 0 2
spoil 3 group-dni 16
";
    let lines = list::read(list).unwrap();
    assert_eq!(list::spell(&lines), spelled);
    assert_eq!(list::read(spelled).unwrap(), lines);
}

#[test]
fn lines_that_are_wrong() {
    for line in [
        "0 100 group id=7 role=0 peer=55 => 0",
        "0 100 group role=0 peer=55 dni=101 => 0",
        "0 100 group id=7 role=256 peer=55 dni=101 => 0",
        "0 100 group id=4294967296 role=0 peer=55 dni=101 => 0",
        "0 100 group id=7 role=0 peer=55 dni=101 ac=0 => 0",
        "0 - ac id=7 => 0",
        "0 - ac id=7 ac=256 => 0",
        "0 - return => 0",
        "0 - return id=7 hex 00 => 0",
        "- - ask => 24",
        "- - asks id=7 => 24",
        "spoil 0 group-name 7",
        "spoil 0 group-id",
    ] {
        assert!(list::read(line).is_err(), "{line}");
    }
    for line in ["spoil 0 group 256", "spoil 0 group-id 4294967296"] {
        let lines = list::read(&format!("0 100 open my=1 => 0\n{line}")).unwrap();
        assert_eq!(list::play(&lines).wrong.len(), 1, "{line}");
    }
}
