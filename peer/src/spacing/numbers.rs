//! The five numbers of some errors, exact, and the line that says them.

/// The greatest number that is given: that of a signed 64-bit one.
pub const LIMIT: i128 = i64::MAX as i128;

/// Number of pairs, least and greatest error if there is one, the sum of the
/// errors and that of their sizes.
#[derive(Clone, Copy, Debug, Default, PartialEq, Eq)]
pub struct Numbers {
    pub pairs: i128,
    pub least: Option<i128>,
    pub greatest: Option<i128>,
    pub sum: i128,
    pub sizes: i128,
}

impl Numbers {
    pub fn of(errors: impl Iterator<Item = i128> + Clone) -> Numbers {
        Numbers {
            pairs: errors.clone().count() as i128,
            least: errors.clone().min(),
            greatest: errors.clone().max(),
            sum: errors.clone().sum(),
            sizes: errors.map(i128::abs).sum(),
        }
    }

    /// Those of the errors of both.
    pub fn with(&self, other: &Numbers) -> Numbers {
        let both = |one: Option<i128>, other: Option<i128>| one.into_iter().chain(other);
        Numbers {
            pairs: self.pairs + other.pairs,
            least: both(self.least, other.least).min(),
            greatest: both(self.greatest, other.greatest).max(),
            sum: self.sum + other.sum,
            sizes: self.sizes + other.sizes,
        }
    }

    /// Whether each of the five fits a signed 64-bit number.
    pub fn fits(&self) -> bool {
        let numbers = [self.pairs, self.sum, self.sizes].into_iter();
        let mut all = numbers.chain(self.least).chain(self.greatest);
        all.all(|number| i64::try_from(number).is_ok())
    }

    /// What is printed, without the end of the line.
    pub fn line(&self) -> String {
        if !self.fits() {
            return "refused 21".to_string();
        }
        let said = |number: Option<i128>| number.map_or("-".to_string(), |n| n.to_string());
        let (least, greatest) = (said(self.least), said(self.greatest));
        let Numbers {
            pairs, sum, sizes, ..
        } = self;
        format!("{pairs} {least} {greatest} {sum} {sizes}")
    }
}
