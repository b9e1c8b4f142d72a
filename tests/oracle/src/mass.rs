//! "From concentration to mass".

use crate::bound::{Bound, Rounding};
use crate::natural::{halved, product as product_of, Natural};
use crate::numbers::{at_0, refuse, Refusal, MASS_ABOVE_RANGE, MASS_INPUT};
use crate::rules::{ReadingKind, Rules, Slip, Step};

/// "A reading is one of four: wet ppm, dry ppm, wet percent, dry percent, each carrying one f64".
#[derive(Clone, Copy, Debug, PartialEq)]
pub enum Reading {
    WetPpm(f64),
    DryPpm(f64),
    WetPercent(f64),
    DryPercent(f64),
}

impl Reading {
    /// The reading of a kind 0 to 3, in the paper's order; another kind is 9.
    pub fn of_kind(rules: &Rules, kind: u8, value: f64) -> Result<Reading, Refusal> {
        match rules.mass.kinds.get(usize::from(kind)) {
            Some(ReadingKind::WetPpm) => Ok(Reading::WetPpm(value)),
            Some(ReadingKind::DryPpm) => Ok(Reading::DryPpm(value)),
            Some(ReadingKind::WetPercent) => Ok(Reading::WetPercent(value)),
            Some(ReadingKind::DryPercent) => Ok(Reading::DryPercent(value)),
            None => Err(Refusal::new(MASS_INPUT)),
        }
    }

    /// The value, whether it is percent, whether it is dry.
    fn taken_apart(&self) -> (f64, bool, bool) {
        match *self {
            Reading::WetPpm(value) => (value, false, false),
            Reading::DryPpm(value) => (value, false, true),
            Reading::WetPercent(value) => (value, true, false),
            Reading::DryPercent(value) => (value, true, true),
        }
    }

    /// "Ppm runs 0 to 200,000, percent 0 to 20".
    pub fn in_range(&self, rules: &Rules) -> bool {
        let (value, percent, _) = self.taken_apart();
        if value.is_nan() && rules.slips(Slip::NotANumberIsZero) {
            return true;
        }
        if is_negative_zero(value) && rules.slips(Slip::NegativeZeroReadingRefused) {
            return false;
        }
        let mass = &rules.mass;
        if percent { mass.percent } else { mass.ppm }.holds(value)
    }
}

/// "A setting holds u .., the dry-wet factor .. and exhaust flow in kg/s".
#[derive(Clone, Copy, Debug, PartialEq)]
pub struct Setting {
    pub u: f64,
    pub factor: f64,
    pub flow: f64,
}

impl Setting {
    /// "u (above 0, at most 0.01), the dry-wet factor (above 0, at most 1) and exhaust flow in kg/s
    /// (0 to 1)"; 0.01 is the f64 nearest to 1/100.
    pub fn in_range(&self, rules: &Rules) -> bool {
        if is_negative_zero(self.flow) && rules.slips(Slip::NegativeZeroFlowRefused) {
            return false;
        }
        let mass = &rules.mass;
        mass.u.holds(self.u) && mass.factor.holds(self.factor) && mass.flow.holds(self.flow)
    }
}

fn is_negative_zero(value: f64) -> bool {
    value == 0.0 && value.is_sign_negative()
}

/// "a negative zero reading or flow counts as zero"
fn zero_without_sign(value: f64) -> f64 {
    if value == 0.0 || value.is_nan() {
        0.0
    } else {
        value
    }
}

/// The numbers that are multiplied, the reading first, "in this order".
fn factors(rules: &Rules, reading: Reading, setting: Setting, scale: f64) -> Vec<f64> {
    let (value, percent, dry) = reading.taken_apart();
    let dry = dry != rules.slips(Slip::WetTimesTheFactor);
    let mut factors = vec![zero_without_sign(value)];
    for step in &rules.mass.steps {
        match step {
            Step::PercentTimes => factors.extend(percent.then_some(rules.mass.percent_times)),
            Step::DryTimesTheFactor => factors.extend(dry.then_some(setting.factor)),
            Step::TimesU => factors.push(setting.u),
            Step::TimesFlow => factors.push(zero_without_sign(setting.flow)),
            Step::TimesScale => factors.push(scale),
        }
    }
    factors
}

/// "In this order, one rounding each: percent times 10,000; dry times the factor; u times that;
/// times flow; times 1,000 for CO2 in mg or 1,000,000 for NOx in µg."
pub fn last_product(rules: &Rules, reading: Reading, setting: Setting, scale: f64) -> f64 {
    factors(rules, reading, setting, scale)
        .into_iter()
        .fold(1.0, |product, factor| product * factor)
}

/// "The whole part of the last product is the answer, found from its bits", for a finite number
/// without sign, below 2^128: mantissa times two to the exponent, what is below one cut off.
pub fn whole_part(x: f64) -> u128 {
    assert!(x.is_finite() && x.is_sign_positive(), "no whole part");
    let bits = x.to_bits();
    let exponent_field = bits / (1 << 52);
    let mantissa = (1 << 52) + u128::from(bits % (1 << 52));
    if exponent_field < 1_023 {
        0 // below one; zero and subnormal numbers too
    } else if exponent_field < 1_075 {
        mantissa / 2u128.pow((1_075 - exponent_field) as u32)
    } else {
        mantissa * 2u128.pow((exponent_field - 1_075) as u32)
    }
}

/// The last product as a whole number; only a wrong reading brings one below zero.
fn whole(rules: &Rules, product: f64) -> u128 {
    if product.is_sign_negative() {
        return 0;
    }
    let down = whole_part(product);
    let rest = product - down as f64;
    let up = match rules.mass.rounding {
        Rounding::Down | Rounding::TowardsZero => false,
        Rounding::Up => rest > 0.0,
        Rounding::Nearest => rest >= 0.5,
    };
    down + u128::from(up)
}

/// A finite number without sign as a natural number over a power of two.
fn as_fraction(x: f64) -> (i128, usize) {
    let bits = x.to_bits();
    let exponent_field = (bits >> 52) as usize;
    let mantissa = i128::from(bits % (1 << 52));
    match exponent_field {
        0 => (mantissa, 1_074),
        normal => (mantissa + (1 << 52), 1_075 - normal.min(1_075)),
    }
}

/// What would come out without any rounding: the whole part of the exact product.
fn whole_part_of_exact_product(factors: &[f64]) -> Natural {
    let fractions: Vec<(i128, usize)> = factors.iter().map(|&x| as_fraction(x)).collect();
    let numerators: Vec<i128> = fractions.iter().map(|f| f.0).collect();
    halved(
        &product_of(&numerators),
        fractions.iter().map(|f| f.1).sum(),
    )
}

/// The mass of inputs in range, which may be above its range.
fn mass_unjudged(rules: &Rules, reading: Reading, setting: Setting, scale: f64) -> u128 {
    if rules.slips(Slip::NoRoundingOfProducts) {
        let exact = whole_part_of_exact_product(&factors(rules, reading, setting, scale));
        return exact.small().unwrap_or(u128::MAX);
    }
    whole(rules, last_product(rules, reading, setting, scale))
}

/// "Mass: 9, then 10." All ranges are those of the inputs as given.
fn mass(
    rules: &Rules,
    reading: Reading,
    setting: Setting,
    scale: f64,
    most: Bound<i128>,
) -> Result<u32, Refusal> {
    let (_, _, dry) = reading.taken_apart();
    let spared = !dry && rules.slips(Slip::FactorNotAskedOfWetReadings);
    let asked = Setting {
        factor: if spared { 1.0 } else { setting.factor },
        ..setting
    };
    let inputs_fit = reading.in_range(rules) && asked.in_range(rules);
    let product = last_product(rules, reading, setting, scale);
    refuse(&rules.orders.mass, |number| match number {
        MASS_INPUT => at_0(!inputs_fit),
        MASS_ABOVE_RANGE if !product.is_finite() => None,
        MASS_ABOVE_RANGE if rules.slips(Slip::RangeOfTheProduct) => {
            at_0(product > most.number as f64)
        }
        MASS_ABOVE_RANGE => {
            let whole = mass_unjudged(rules, reading, setting, scale);
            at_0(!most.holds(i128::try_from(whole).unwrap_or(i128::MAX)))
        }
        _ => None,
    })?;
    let whole = mass_unjudged(rules, reading, setting, scale);
    Ok(u32::try_from(whole).expect("not above the second's range"))
}

/// "times 1,000 for CO2 in mg"; "CO2: mg in the second, 0 to 100,000".
pub fn co2_mass(rules: &Rules, reading: Reading, setting: Setting) -> Result<u32, Refusal> {
    let (scale, most) = (rules.mass.co2_scale, rules.mass.co2_most);
    mass(rules, reading, setting, scale, most)
}

/// "1,000,000 for NOx in µg"; "NOx: µg in the second, 0 to 10,000,000".
pub fn nox_mass(rules: &Rules, reading: Reading, setting: Setting) -> Result<u32, Refusal> {
    let (scale, most) = (rules.mass.nox_scale, rules.mass.nox_most);
    mass(rules, reading, setting, scale, most)
}
