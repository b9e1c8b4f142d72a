//! The wrong readings of the paper, one table: every number one off each way, every end with and
//! without it, every part, bin, class, lane or state left out or exchanged, every pair of refusals
//! in the other order, every rounding the other way, every first as last. Each row names the
//! sentence that it misreads. The tests show that each is told from the right reading by an input
//! that the product answers too.

use crate::bound::{range, Bound, Range, Rounding, Side};
use crate::rules::{Order, Rules, Slip};

#[rustfmt::skip] // a row a line
mod table;

/// One wrong reading.
#[derive(Clone, Debug)]
pub struct Wrong {
    /// The part of the paper; inputs of that name are tried first.
    pub part: &'static str,
    pub sentence: String,
    pub instead: String,
    pub rules: Rules,
}

/// The sentences of three orders, as the table has them.
const OF_THE_STREAM: &str = "Stream: within it 8, 7, 11, 5 or 3, 2, 6";
const OF_THE_ITEM: &str = "one item: 8, 7, then 5 or 3";
const OF_THE_PERCENTILE: &str = "Percentile: 2, 12, 6, 3";

/// More sentences of which a wrong reading is not to be told; the second is the first since L2.
const UP_TO_THE_TURN: &str = "for v up to 56,664";
const UP_TO_THE_TURN_ITSELF: &str = "L2: the first up to 56,664 itself";
const JUDGED_FOR_NEITHER: &str = "11: that bin is judged for neither 12 nor 13";

const NO_LENGTH: &str = "an item of unknown kind has no length, so it is never cut";
const NEITHER: &str = "an item of unknown kind is neither a plan nor a second";
const NO_VALUES: &str = "an item that is cut has no values to judge";
const ONE_OF_TWO: &str = "an item is a plan or a second, never both";
const NO_PLACE: &str = "a plan is no second and takes no place";
const FIRST_ITEM: &str = "a misplaced second is the first item, and a misplaced plan is no second";
const FEW_OR_MANY: &str = "more than 8,192 values are never fewer than 100";
const LINES_MEET: &str = "at 56,664 both lines give E2";
const NEVER_LIVELY: &str = "there Q is 0, and 0 is never too lively";

/// The wrong readings that no input can tell: sentence, what is read instead, and the ground. A
/// sentence that a release has in other words has a row of its own.
pub const NOT_TO_BE_TOLD: [(&str, &str, &str); 21] = [
    (OF_THE_STREAM, "7 before 8", NO_LENGTH),
    (OF_THE_STREAM, "5 before 8", NEITHER),
    (OF_THE_STREAM, "3 before 8", NEITHER),
    (OF_THE_STREAM, "2 before 8", NEITHER),
    (OF_THE_STREAM, "6 before 8", NEITHER),
    (OF_THE_STREAM, "5 before 7", NO_VALUES),
    (OF_THE_STREAM, "3 before 7", NO_VALUES),
    (OF_THE_STREAM, "2 before 11", FIRST_ITEM),
    (OF_THE_STREAM, "3 before 5", ONE_OF_TWO),
    (OF_THE_STREAM, "2 before 5", NO_PLACE),
    (OF_THE_STREAM, "6 before 5", NO_PLACE),
    (OF_THE_ITEM, "7 before 8", NO_LENGTH),
    (OF_THE_ITEM, "5 before 8", NEITHER),
    (OF_THE_ITEM, "3 before 8", NEITHER),
    (OF_THE_ITEM, "5 before 7", NO_VALUES),
    (OF_THE_ITEM, "3 before 7", NO_VALUES),
    (OF_THE_ITEM, "3 before 5", ONE_OF_TWO),
    (OF_THE_PERCENTILE, "12 before 2", FEW_OR_MANY),
    (UP_TO_THE_TURN, "56663 for 56664", LINES_MEET),
    (UP_TO_THE_TURN_ITSELF, "below for at most", LINES_MEET),
    (JUDGED_FOR_NEITHER, "it is for 12", NEVER_LIVELY),
];

/// The table while it is filled: each method adds rows.
struct Table {
    right: Rules,
    part: &'static str,
    /// Whether the rows that follow are misread by the writer alone.
    writer_alone: bool,
    rows: Vec<Wrong>,
}

/// The sides in the paper's words.
fn word(side: Side) -> &'static str {
    match side {
        Side::AtLeast => "at least",
        Side::Above => "above",
        Side::AtMost => "at most",
        Side::Below => "below",
    }
}

impl Table {
    /// A row: the sentence, what is read instead, and the change that does it.
    fn row(&mut self, sentence: &str, instead: String, change: impl FnOnce(&mut Rules)) {
        let mut rules = self.right.clone();
        change(&mut rules);
        let mut sentence = sentence.to_string();
        if self.writer_alone {
            sentence += " (writer)";
            let writer_alone = Some(Box::new(rules));
            rules = Rules {
                writer_alone,
                ..self.right.clone()
            };
        }
        self.rows.push(Wrong {
            part: self.part,
            sentence,
            instead,
            rules,
        });
    }

    /// A number one lower and one higher.
    fn number(&mut self, sentence: &str, of: impl Fn(&mut Rules) -> &mut i128) {
        for step in [-1, 1] {
            let right = *of(&mut self.right);
            let instead = format!("{} for {right}", right + step);
            self.row(sentence, instead, |rules| *of(rules) += step);
        }
    }

    /// A bound on whole numbers one lower and one higher; one of the two is the other end.
    fn end(&mut self, sentence: &str, of: impl Fn(&mut Rules) -> &mut Bound<i128>) {
        self.number(sentence, |rules| &mut of(rules).number);
    }

    /// A side with its end exchanged.
    fn side(&mut self, sentence: &str, of: impl Fn(&mut Rules) -> &mut Side) {
        let right = *of(&mut self.right);
        let instead = format!("{} for {}", word(right.other_end()), word(right));
        self.row(sentence, instead, |rules| *of(rules) = right.other_end());
    }

    /// A bound on a share or a mean, compared by cross-multiplying: its number and its end.
    fn share(&mut self, sentence: &str, of: impl Fn(&mut Rules) -> &mut Bound<i128>) {
        self.number(sentence, |rules| &mut of(rules).number);
        self.side(sentence, |rules| &mut of(rules).side);
    }

    /// A range on numbers that may be negative, or whose least is above zero.
    fn range(&mut self, sentence: &str, of: impl Fn(&mut Rules) -> &mut Range<i128>) {
        self.end(sentence, |rules| &mut of(rules).least);
        self.end(sentence, |rules| &mut of(rules).most);
    }

    /// A range on numbers without sign from 0.
    fn range_from_0(&mut self, sentence: &str, of: impl Fn(&mut Rules) -> &mut Range<i128>) {
        let from_1 = |rules: &mut Rules| of(rules).least.number = 1;
        self.row(sentence, "1 for 0".to_string(), from_1);
        self.end(sentence, |rules| &mut of(rules).most);
    }

    /// A range that is not looked at.
    fn unchecked(
        &mut self,
        sentence: &str,
        name: &str,
        of: impl Fn(&mut Rules) -> &mut Range<i128>,
    ) {
        let all = range(-(1 << 100), 1 << 100);
        let instead = format!("{name} not looked at");
        self.row(sentence, instead, |rules| *of(rules) = all);
    }

    /// A bound on an f64 one step lower and one higher; one of the two is the other end.
    fn real(&mut self, sentence: &str, of: impl Fn(&mut Rules) -> &mut Bound<f64>) {
        let right = of(&mut self.right).number;
        for wrong in [right.next_down(), right.next_up()] {
            let instead = format!("{wrong:e} for {right}");
            self.row(sentence, instead, |rules| of(rules).number = wrong);
        }
    }

    /// A side of a bound above zero, which one step does not reach.
    fn real_end(&mut self, sentence: &str, of: impl Fn(&mut Rules) -> &mut Bound<f64>) {
        self.side(sentence, |rules| &mut of(rules).side);
        self.real(sentence, of);
    }

    /// A factor of the mass step one lower and one higher.
    fn factor(&mut self, sentence: &str, of: impl Fn(&mut Rules) -> &mut f64) {
        for step in [-1.0, 1.0] {
            let right = *of(&mut self.right);
            let instead = format!("{} for {right}", right + step);
            self.row(sentence, instead, |rules| *of(rules) += step);
        }
    }

    /// A quotient rounded otherwise, or rounded where it is not.
    fn rounding<R: From<Rounding>>(
        &mut self,
        sentence: &str,
        otherwise: &[Rounding],
        of: impl Fn(&mut Rules) -> &mut R,
    ) {
        for &wrong in otherwise {
            let change = |rules: &mut Rules| *of(rules) = wrong.into();
            self.row(sentence, format!("rounded {wrong:?}"), change);
        }
    }

    /// A figure rounded in one of its uses alone.
    fn rounding_slip(
        &mut self,
        sentence: &str,
        roundings: &[Rounding],
        slip: impl Fn(Rounding) -> Slip,
    ) {
        for &rounding in roundings {
            let instead = format!("rounded {rounding:?}");
            self.slip(sentence, &instead, slip(rounding));
        }
    }

    /// Every pair of an order exchanged.
    fn order(&mut self, sentence: &str, of: impl Fn(&mut Rules) -> &mut Order) {
        let right = of(&mut self.right).numbers.clone();
        for (place, &late) in right.iter().enumerate() {
            for &early in &right[..place] {
                let instead = format!("{late} before {early}");
                let exchanged = Some((early, late));
                self.row(sentence, instead, |rules| of(rules).exchanged = exchanged);
            }
        }
    }

    /// Each of a list left out.
    fn left_out<T: Clone>(
        &mut self,
        sentence: &str,
        names: &[&str],
        of: impl Fn(&mut Rules) -> &mut Vec<T>,
    ) {
        for (place, name) in names.iter().enumerate() {
            self.row(sentence, format!("without {name}"), |rules| {
                of(rules).remove(place);
            });
        }
    }

    /// Each two neighbours of a list exchanged.
    fn exchanged<T>(
        &mut self,
        sentence: &str,
        names: &[&str],
        of: impl Fn(&mut Rules) -> &mut [T],
    ) {
        for (place, two) in names.windows(2).enumerate() {
            let instead = format!("{} and {} exchanged", two[0], two[1]);
            self.row(sentence, instead, |rules| of(rules).swap(place, place + 1));
        }
    }

    /// The states of which something holds.
    fn states(
        &mut self,
        sentence: &str,
        otherwise: &[&'static [u8]],
        of: impl Fn(&mut Rules) -> &mut &'static [u8],
    ) {
        for &wrong in otherwise {
            let instead = format!("states {wrong:?} for {:?}", of(&mut self.right));
            self.row(sentence, instead, |rules| *of(rules) = wrong);
        }
    }

    /// A sentence misread in words.
    fn slip(&mut self, sentence: &str, instead: &str, slip: Slip) {
        let change = |rules: &mut Rules| rules.slip = Some(slip);
        self.row(sentence, instead.to_string(), change);
    }

    /// The rows that follow are of this part.
    fn part(&mut self, part: &'static str) {
        self.part = part;
    }
}

/// Every wrong reading of these rules.
pub fn readings(right: &Rules) -> Vec<Wrong> {
    let mut table = Table {
        right: right.clone(),
        part: "",
        writer_alone: false,
        rows: Vec::new(),
    };
    table::fill(&mut table);
    table.rows
}
