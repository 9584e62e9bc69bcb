//! Numbers and octets, written at the end of a line without a detour through strings.

/// The digits of the greatest 64-bit number.
const MOST_DIGITS: usize = 20;

/// Appends a number in decimal.
pub fn append_number(out: &mut Vec<u8>, number: u64) {
    append_digits(out, number, false);
}

/// Appends a number with a comma before every three digits.
pub fn append_grouped(out: &mut Vec<u8>, number: u64) {
    append_digits(out, number, true);
}

/// The digits come from the last to the first, so they are laid out behind the line and turned.
fn append_digits(out: &mut Vec<u8>, number: u64, grouped: bool) {
    let start = out.len();
    let mut left = number;
    for place in 0..MOST_DIGITS {
        if grouped && place > 0 && place % 3 == 0 {
            out.push(b',');
        }
        out.push(b'0' + (left % 10) as u8);
        left /= 10;
        if left == 0 {
            break;
        }
    }
    if let Some(digits) = out.get_mut(start..) {
        digits.reverse();
    }
}

/// Appends octets in hexadecimal, two digits each.
pub fn append_hex(out: &mut Vec<u8>, octets: &[u8]) {
    for octet in octets {
        out.push(hex_digit(octet >> 4));
        out.push(hex_digit(octet & 15));
    }
}

fn hex_digit(nibble: u8) -> u8 {
    match nibble {
        0..=9 => b'0' + nibble,
        _ => b'a' + (nibble - 10),
    }
}

/// The octets of hexadecimal digits; nothing if they are none.
pub fn octets_of(digits: &[u8]) -> Option<Vec<u8>> {
    let value = |digit: u8| char::from(digit).to_digit(16);
    let pair = |pair: &[u8]| match *pair {
        [high, low] => u8::try_from(value(high)? << 4 | value(low)?).ok(),
        _ => None,
    };
    digits.chunks(2).map(pair).collect()
}

/// Appends spaces until the line that starts at `start` is `width` long, and one at least.
pub fn append_spaces(out: &mut Vec<u8>, start: usize, width: usize) {
    let wanted = start.saturating_add(width);
    out.resize(wanted.max(out.len().saturating_add(1)), b' ');
}

/// Moves what was appended from `start` on to the right, so that it ends a column of `width`.
pub fn align_right(out: &mut Vec<u8>, start: usize, width: usize) {
    let length = out.len().saturating_sub(start);
    let missing = width.saturating_sub(length);
    out.resize(out.len().saturating_add(missing), b' ');
    if let Some(column) = out.get_mut(start..) {
        column.rotate_right(missing);
    }
}

#[cfg(test)]
mod tests {
    use super::*;

    #[test]
    fn numbers_are_what_format_says() {
        for number in [0, 7, 10, 999, 1_000, 65_535, 1_000_000, u64::MAX] {
            let mut out = b"x".to_vec();
            append_number(&mut out, number);
            assert_eq!(out, format!("x{number}").into_bytes());
            let mut out = b"x".to_vec();
            append_grouped(&mut out, number);
            let grouped = peer::assemble::grouped(number);
            assert_eq!(out, format!("x{grouped}").into_bytes());
        }
    }

    #[test]
    fn hex_goes_and_comes() {
        let octets: Vec<u8> = (0..=255).collect();
        let mut out = Vec::new();
        append_hex(&mut out, &octets);
        assert!(out.starts_with(b"000102") && out.ends_with(b"fdfeff"));
        assert_eq!(octets_of(&out), Some(octets));
        assert_eq!(octets_of(b"123"), None);
        assert_eq!(octets_of(b"0g"), None);
        assert_eq!(octets_of(b"+1"), None);
    }

    #[test]
    fn columns() {
        let mut out = b"before 12".to_vec();
        align_right(&mut out, 7, 5);
        assert_eq!(out, b"before    12");
        align_right(&mut out, 7, 2);
        assert_eq!(out, b"before    12");
        append_spaces(&mut out, 7, 8);
        assert_eq!(out, b"before    12   ");
        append_spaces(&mut out, 7, 0);
        assert_eq!(out, b"before    12    ");
    }
}
