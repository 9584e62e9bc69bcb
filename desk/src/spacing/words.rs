//! The five numbers in words, and as JSON.

use super::bins::MIDDLE;
use super::{Answer, Numbers};

/// A line of text on a label.
pub fn text(label: u32, answer: &Answer) -> String {
    let words = match answer {
        Answer::TooLarge => "refused 21, a number does not fit".to_string(),
        Answer::Numbers(numbers) => match (numbers.least, numbers.greatest, mean(numbers)) {
            (Some(least), Some(greatest), Some(mean)) => format!(
                "{}, least {least}, greatest {greatest}, mean {mean}, sum of sizes {}",
                pairs(numbers.pairs),
                numbers.sizes
            ),
            _ => "no pair of CCs, so no least, no greatest and no mean; sum of sizes 0".to_string(),
        },
    };
    format!("label {label}, spacing: {words}\n")
}

fn pairs(number: u64) -> String {
    let many = if number == 1 { "" } else { "s" };
    format!("{number} pair{many}")
}

/// The sum by the number of pairs: a whole number, or the fraction and about how much it is.
pub fn mean(numbers: &Numbers) -> Option<String> {
    let (sum, pairs) = (i128::from(numbers.sum), i128::from(numbers.pairs));
    if pairs == 0 {
        return None;
    }
    if sum % pairs == 0 {
        return Some((sum / pairs).to_string());
    }
    // To the nearest thousandth, halves away from 0.
    let thousandths = (2_000 * sum.abs() + pairs) / (2 * pairs);
    let sign = if sum < 0 { "-" } else { "" };
    let (whole, rest) = (thousandths / 1_000, thousandths % 1_000);
    Some(format!("{sum}/{pairs}, about {sign}{whole}.{rest:03}"))
}

/// One object in one line.
pub fn json(label: u32, answer: &Answer) -> String {
    let said = |number: Option<i64>| number.map_or("null".to_string(), |n| n.to_string());
    let spacing = match answer {
        Answer::TooLarge => "\"refused\":21".to_string(),
        Answer::Numbers(numbers) => format!(
            "\"pairs\":{},\"least\":{},\"greatest\":{},\"sum\":{},\"sizes\":{}",
            numbers.pairs,
            said(numbers.least),
            said(numbers.greatest),
            numbers.sum,
            numbers.sizes
        ),
    };
    format!("{{\"label\":{label},\"spacing\":{{{spacing}}}}}\n")
}

/// Where the sizes of bins begin, counted from the middle; the last one has no end.
const SIZES: [&str; 8] = [
    "0", "1 µs", "10 µs", "100 µs", "1 ms", "10 ms", "100 ms", "1 s",
];

/// What is in a bin.
pub fn bin_words(place: usize) -> String {
    let side = if place < MIDDLE { "early" } else { "late" };
    let steps = place.abs_diff(MIDDLE);
    match (SIZES.get(steps), SIZES.get(steps + 1)) {
        _ if steps == 0 => "on time to the microsecond".to_string(),
        (Some(from), Some(to)) => format!("{side} by {from} or more, less than {to}"),
        (from, _) => format!("{side} by {} or more", from.unwrap_or(&"1 s")),
    }
}

#[cfg(test)]
mod tests {
    use super::*;

    fn numbers(pairs: u64, sum: i64) -> Numbers {
        Numbers {
            pairs,
            least: Some(-400),
            greatest: Some(300),
            sum,
            sizes: 700,
        }
    }

    #[test]
    fn means_are_exact_or_said_to_be_about() {
        let mean = |pairs, sum| mean(&numbers(pairs, sum)).unwrap();
        assert_eq!(mean(2, -100), "-50");
        assert_eq!(mean(3, -100), "-100/3, about -33.333");
        assert_eq!(mean(3, 200), "200/3, about 66.667");
        assert_eq!(mean(2_000, 1), "1/2000, about 0.001");
        assert_eq!(mean(2_001, -1), "-1/2001, about -0.000");
        assert_eq!(mean(3, -1), "-1/3, about -0.333");
        let most = mean(2, i64::MAX);
        assert_eq!(most, "9223372036854775807/2, about 4611686018427387903.500");
        assert_eq!(super::mean(&Numbers::default()), None);
    }

    #[test]
    fn lines() {
        let told = |answer: Answer| (text(7, &answer), json(7, &answer));
        let (words, object) = told(Answer::Numbers(numbers(2, -100)));
        assert_eq!(
            words,
            "label 7, spacing: 2 pairs, least -400, greatest 300, mean -50, sum of sizes 700\n"
        );
        let five = "\"pairs\":2,\"least\":-400,\"greatest\":300,\"sum\":-100,\"sizes\":700";
        assert_eq!(object, format!("{{\"label\":7,\"spacing\":{{{five}}}}}\n"));
        let (words, object) = told(Answer::Numbers(Numbers::default()));
        assert!(words.contains("no least, no greatest"), "{words}");
        assert!(object.contains("\"least\":null,\"greatest\":null"));
        let (words, object) = told(Answer::TooLarge);
        assert_eq!(
            words,
            "label 7, spacing: refused 21, a number does not fit\n"
        );
        assert_eq!(object, "{\"label\":7,\"spacing\":{\"refused\":21}}\n");
    }

    #[test]
    fn words_of_the_bins() {
        assert_eq!(bin_words(0), "early by 1 s or more");
        assert_eq!(bin_words(1), "early by 100 ms or more, less than 1 s");
        assert_eq!(bin_words(6), "early by 1 µs or more, less than 10 µs");
        assert_eq!(bin_words(7), "on time to the microsecond");
        assert_eq!(bin_words(8), "late by 1 µs or more, less than 10 µs");
        assert_eq!(bin_words(14), "late by 1 s or more");
    }
}
