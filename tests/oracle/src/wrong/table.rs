//! The rows: a sentence of the paper, and how it is misread.
//!
//! `number`: one lower, one higher. `end`: a bound on whole numbers, so with and without its end.
//! `share`: a bound compared by cross-multiplying, its number and its end. `range`, `range_from_0`:
//! both ends. `order`: every two refusals the other way round. `left_out`, `exchanged`: each of a
//! list, each two neighbours of it. `slip`: misread in words.

use super::{Table, JUDGED_FOR_NEITHER, OF_THE_ITEM, OF_THE_PERCENTILE, OF_THE_STREAM};
use super::{UP_TO_THE_TURN, UP_TO_THE_TURN_ITSELF};
use crate::bound::Rounding;
use crate::numbers::NO_SECOND;
use crate::rules::{End, Holds, Kind, Rules, Slip};

const PARTS: [&str; 3] = ["urban", "rural", "motorway"];
const LANES: [&str; 5] = ["states", "speeds", "altitudes", "CO2", "NOx"];

/// The rows, in the paper's order.
pub fn fill(t: &mut Table) {
    ranges(t);
    states(t);
    stream(t);
    orders(t);
    writer(t);
    shared_by_the_writer(t);
    mass(t);
    kept_and_windows(t);
    sweep(t);
    window_figures(t);
    dynamics(t);
    lively_and_dull(t);
    climb(t);
    reasons_0_to_7(t);
    reasons_8_to_15(t);
    answer_and_printed(t);
}

fn ranges_of_seconds_and_plans(t: &mut Table) {
    let speed = "Speed: 0.01 km/h, 0 to 25,000";
    t.range_from_0(speed, |r| &mut r.ranges.speed);
    t.unchecked(speed, "speed", |r| &mut r.ranges.speed);
    let altitude = "Altitude: cm, -50,000 to 500,000";
    t.range(altitude, |r| &mut r.ranges.altitude);
    t.unchecked(altitude, "altitude", |r| &mut r.ranges.altitude);
    let co2 = "CO2: mg in the second, 0 to 100,000";
    t.range_from_0(co2, |r| &mut r.ranges.co2);
    t.unchecked(co2, "CO2", |r| &mut r.ranges.co2);
    let nox = "NOx: µg in the second, 0 to 10,000,000";
    t.range_from_0(nox, |r| &mut r.ranges.nox);
    t.unchecked(nox, "NOx", |r| &mut r.ranges.nox);
    let reference = "Plan: reference CO2 mass in mg, 1 to 20,000,000";
    t.range(reference, |r| &mut r.ranges.reference);
    t.unchecked(reference, "reference", |r| &mut r.ranges.reference);
    for (place, name) in ["E1", "E2", "E3"].into_iter().enumerate() {
        let curve = format!("curve values E1, E2, E3 in mg/km, each 1 to 2,000,000: {name}");
        t.range(&curve, |r| &mut r.ranges.curve[place]);
        t.unchecked(&curve, name, |r| &mut r.ranges.curve[place]);
    }
    for (place, name) in ["lower", "urban", "rural", "motorway"].into_iter().enumerate() {
        let each = format!("lower tolerance and upper tolerances, percent, each 0 to 100: {name}");
        t.range_from_0(&each, |r| &mut r.ranges.tolerances[place]);
        t.unchecked(&each, name, |r| &mut r.ranges.tolerances[place]);
    }
}

fn ranges(t: &mut Table) {
    t.part("range");
    ranges_of_seconds_and_plans(t);
    t.range_from_0("products in any order, each 0 to 625,000,000", |r| &mut r.ranges.product);
    let limit = "A trip has at most 8,192 seconds";
    t.end(&format!("{limit}: stream"), |r| &mut r.limits.stream);
    t.part("order of the trip");
    t.end(&format!("{limit}: trip"), |r| &mut r.limits.trip);
    t.part("range");
    t.end(&format!("{limit}: D of one second"), |r| &mut r.limits.d);
    t.end(&format!("{limit}: sweep"), |r| &mut r.limits.sweep);
    t.end(&format!("{limit}: percentile"), |r| &mut r.limits.percentile);
    t.part("writer");
    t.end(&format!("{limit}: writer"), |r| &mut r.limits.writer);
}

fn states(t: &mut Table) {
    t.part("state");
    refused_of_lanes(t);
    t.states("2 missing", &[&[2, 3], &[], &[3]], |r| &mut r.states.missing);
    t.states("In states 1 and 3 every value is present", &[&[1], &[3], &[1, 2, 3]], |r| &mut r.states.recorded);
    t.states("A check second counts with its speed and altitude, not with its masses", &[&[1, 3], &[3], &[]], |r| {
        &mut r.states.with_masses
    });
    t.left_out("6: a lane to be written is too short (stream)", &LANES, |r| &mut r.lanes.of_the_stream);
    let lent = ["kept speeds", "kept CO2", "ends", "ranks"];
    t.left_out("6: a lane to be written is too short (trip)", &lent, |r| &mut r.lanes.lent);
    t.slip("the kept and end lanes, each needing a place per second", "a place per kept second", Slip::RoomForKeptSecondsAlone);
    t.slip("3: index, from 0, of the first bad value", "of the last", Slip::LastBadValue);
}

fn refused_of_lanes(t: &mut Table) {
    t.states(
        "Each second has a state: 1 measured, 2 missing, 3 instrument check",
        &[&[0, 1, 2, 3], &[1, 2, 3, 4], &[1, 2], &[1, 3], &[2, 3]],
        |r| &mut r.states.known,
    );
    t.states("The values of a missing second are ignored and not range-checked", &[&[1, 2, 3], &[1], &[3]], |r| {
        &mut r.states.range_checked
    });
    t.left_out("1: lanes of one trip differ in length", &LANES, |r| &mut r.lanes.of_one_length);
    t.slip("3: index, from 0, of the first bad second", "of the last", Slip::LastBadSecond);
    t.slip("3: index, from 0, of the first bad second", "place 0", Slip::NoPlaceOfABadSecond);
}

fn table_of_kinds(t: &mut Table) {
    let kinds = "the table of kinds";
    for row in 0..t.right.stream.kinds.len() {
        let Kind { byte, body, .. } = t.right.stream.kinds[row];
        for wrong in [byte - 1, byte + 1] {
            let instead = format!("kind {wrong:#04x} for {byte:#04x}");
            t.row(kinds, instead, |r| r.stream.kinds[row].byte = wrong);
        }
        for wrong in [body.checked_sub(1), Some(body + 1)].into_iter().flatten() {
            let instead = format!("{byte:#04x}: body {wrong} for {body}");
            t.row(kinds, instead, |r| r.stream.kinds[row].body = wrong);
        }
        t.row(kinds, format!("without {byte:#04x}"), |r| {
            r.stream.kinds.remove(row);
        });
    }
    let plan = ["reference", "E1", "E2", "E3", "lower", "urban", "rural", "motorway"];
    t.exchanged("plan: reference, E1, E2, E3 (4 bytes each), four tolerances (1 each) in the order above", &plan, |r| {
        &mut r.stream.kinds[0].layout
    });
    let values = ["speed", "altitude", "CO2", "NOx"];
    let measured = "measured: speed (2), altitude (4), CO2 (4), NOx (4)";
    t.exchanged(measured, &values, |r| &mut r.stream.kinds[1].layout);
    t.exchanged("check second, as 0x01", &values, |r| &mut r.stream.kinds[3].layout);
    let big_endian = "numbers are big-endian";
    t.slip(big_endian, "little-endian", Slip::LittleEndian);
    let signed = "altitude in two's complement";
    t.slip(signed, "without sign", Slip::AltitudeWithoutSign);
    t.slip(signed, "sign and magnitude", Slip::AltitudeBySignAndMagnitude);
}

fn stream(t: &mut Table) {
    t.part("stream");
    table_of_kinds(t);
    t.row("check second, as 0x01", "a measured one".to_string(), |r| r.stream.kinds[3].holds = Holds::Measured);
    let once = "The plan is the first item and comes once";
    t.slip(once, "it may be repeated", Slip::PlanMayBeRepeated);
    t.slip(once, "it may be late", Slip::PlanMayBeLate);
    t.slip(once, "it may be absent", Slip::PlanMayBeAbsent);
    t.slip("A plan with no seconds is a readable stream", "it is refused", Slip::PlanAloneRefused);
    let lanes = "writes state and values into lent lanes, zeros for a missing second";
    t.slip(lanes, "a missing second leaves the values", Slip::MissingSecondLeavesTheLanes);
    t.slip("touches no place beyond the seconds read", "one place more is written", Slip::PlaceBeyondTheSecondsWritten);
    t.slip("A refusal writes into no lane", "the seconds before the bad item are written", Slip::SecondsBeforeABadItemWritten);
    t.slip("reads a stream in blocks", "seconds are written only when all is accepted", Slip::BlocksWrittenOnlyWhenAccepted);
    let place = "stream: byte offset of the item";
    t.slip(place, "offset behind it", Slip::PlaceBehindTheItem);
    t.slip(place, "number of the item", Slip::PlaceByItem);
    t.slip("the first bad item counts", "the last", Slip::LastBadItem);
    let length = "answering the item and its length with the kind byte";
    t.slip(length, "without the kind byte", Slip::LengthWithoutTheKindByte);
    for wrong in [7, 0x08] {
        t.row("an empty stream is 11 at 0", format!("{wrong}"), |r| r.stream.empty_stream = wrong);
    }
    for wrong in [8, 11] {
        t.row("an empty slice is 7", format!("{wrong}"), |r| r.stream.empty_slice = wrong);
    }
}

fn orders(t: &mut Table) {
    t.part("order");
    t.order(OF_THE_STREAM, |r| &mut r.orders.stream);
    t.order("Trip: 5, 1, 2, 6, 3, 4", |r| &mut r.orders.trip);
    t.order("Sweep: 5 (its reference), 2, 6, 3, 13", |r| &mut r.orders.sweep);
    t.order(OF_THE_PERCENTILE, |r| &mut r.orders.percentile);
    t.order("Mass: 9, then 10", |r| &mut r.orders.mass);
    t.order(OF_THE_ITEM, |r| &mut r.orders.item);
    t.order("the D of one second: 1, 2, 3, 4", |r| &mut r.orders.d);
}

fn writer(t: &mut Table) {
    t.part("writer");
    let refusals = "L1: Refusals: 5, 1, 2, 3, then 6 for a short buffer";
    t.order(refusals, |r| &mut r.orders.writer);
    t.left_out(refusals, &["5", "1", "2", "3", "6"], |r| &mut r.orders.writer.numbers);
    t.row(refusals, "4 too, without a recorded second".to_string(), |r| r.orders.writer.numbers.push(NO_SECOND));
    t.row(refusals, "4 too, without a second".to_string(), |r| {
        r.orders.writer.numbers.push(NO_SECOND);
        r.slip = Some(Slip::NoSecondAtAllRefused);
    });
    t.slip(refusals, "3 at the offset of its item", Slip::OffsetOfABadSecond);
    t.slip(refusals, "6 at the second without room", Slip::PlaceOfAShortBuffer);
    let short = "L1: 6 for a short buffer";
    for wrong in [1, -1] {
        t.row(short, format!("{wrong} spared"), |r| r.writer.bytes_spared = wrong);
    }
    t.slip(short, "one without room for values in every second", Slip::RoomForTheValuesOfEverySecond);
    t.slip(short, "with the bytes asked for", Slip::BytesAskedForGivenWith6);
    let nothing = "L1: nothing written";
    t.slip(nothing, "a short buffer is filled", Slip::ShortBufferFilled);
    t.slip(nothing, "the seconds before a bad one are", Slip::SecondsBeforeABadOneWritten);
    let rest = "L1: the rest of the buffer untouched";
    t.slip(rest, "cleared", Slip::RestOfTheBufferCleared);
    t.slip(rest, "a zero behind the stream", Slip::ByteBehindTheStreamWritten);
    let number = "L1: the number of bytes written";
    t.slip(number, "without those of the plan", Slip::BytesWithoutThePlan);
    t.slip(number, "the number of items", Slip::ItemsForBytes);
    t.slip("L1: plan and lanes in, stream out", "the plan last", Slip::PlanWrittenLast);
    let tail = "L1: Service desks trim a trip's tail";
    t.slip(tail, "the writer does, of missing seconds", Slip::MissingSecondsAtTheEndLeftOut);
    t.slip(tail, "the writer does, of standing seconds", Slip::StandingSecondsAtTheEndLeftOut);
    written_as(t);
}

fn written_as(t: &mut Table) {
    let same = "L1: A readable stream, read and rewritten, is the same bytes";
    let states = ["measured", "missing", "check"];
    for (place, state) in states.into_iter().enumerate() {
        for (other, name) in states.into_iter().enumerate().filter(|(other, _)| *other != place) {
            let holds = t.right.writer.written_as[other].1;
            let instead = format!("a {state} second written as a {name} one");
            t.row(same, instead, |r| r.writer.written_as[place].1 = holds);
        }
    }
    t.left_out(same, &states, |r| &mut r.writer.written_as);
}

fn shared_by_the_writer(t: &mut Table) {
    t.writer_alone = true;
    ranges_of_seconds_and_plans(t);
    refused_of_lanes(t);
    table_of_kinds(t);
    t.row("L1: Values in a missing second are ignored", "they are written".to_string(), |r| {
        let measured = r.stream.kinds[1].clone();
        let missing = &mut r.stream.kinds[2];
        (missing.body, missing.layout) = (measured.body, measured.layout);
    });
    t.writer_alone = false;
}

fn mass(t: &mut Table) {
    t.part("mass");
    let ppm = "Ppm runs 0 to 200,000";
    t.real(ppm, |r| &mut r.mass.ppm.least);
    t.real(ppm, |r| &mut r.mass.ppm.most);
    let percent = "percent 0 to 20";
    t.real(percent, |r| &mut r.mass.percent.least);
    t.real(percent, |r| &mut r.mass.percent.most);
    let u = "u (above 0, at most 0.01)";
    t.real_end(u, |r| &mut r.mass.u.least);
    t.real(u, |r| &mut r.mass.u.most);
    let factor = "the dry-wet factor (above 0, at most 1)";
    t.real_end(factor, |r| &mut r.mass.factor.least);
    t.real(factor, |r| &mut r.mass.factor.most);
    let flow = "exhaust flow in kg/s (0 to 1)";
    t.real(flow, |r| &mut r.mass.flow.least);
    t.real(flow, |r| &mut r.mass.flow.most);
    let zero = "a negative zero reading or flow counts as zero";
    t.slip(zero, "such a reading is 9", Slip::NegativeZeroReadingRefused);
    t.slip(zero, "such a flow is 9", Slip::NegativeZeroFlowRefused);
    t.slip("9: a mass input not finite or out of range", "a reading that is no number is 0", Slip::NotANumberIsZero);
    t.slip(
        "A setting holds u, the dry-wet factor and exhaust flow",
        "the factor of a wet reading is not looked at",
        Slip::FactorNotAskedOfWetReadings,
    );
    let kinds = ["wet ppm", "dry ppm", "wet percent", "dry percent"];
    t.exchanged("wet ppm, dry ppm, wet percent, dry percent", &kinds, |r| &mut r.mass.kinds);
    t.left_out("a reading is one of four", &kinds, |r| &mut r.mass.kinds);
    t.factor("percent times 10,000", |r| &mut r.mass.percent_times);
    t.factor("times 1,000 for CO2 in mg", |r| &mut r.mass.co2_scale);
    t.factor("or 1,000,000 for NOx in µg", |r| &mut r.mass.nox_scale);
    let steps = ["percent", "the factor", "u", "flow", "the scale"];
    t.exchanged("In this order, one rounding each", &steps, |r| &mut r.mass.steps);
    t.left_out("In this order: five products", &steps, |r| &mut r.mass.steps);
    t.slip("one rounding each", "the exact product", Slip::NoRoundingOfProducts);
    t.slip("dry times the factor", "wet times it", Slip::WetTimesTheFactor);
    let whole = "The whole part of the last product is the answer";
    t.rounding(whole, &[Rounding::Up, Rounding::Nearest], |r| &mut r.mass.rounding);
    let above = "10: the whole-part mass above the second's range";
    t.end(&format!("{above}: CO2"), |r| &mut r.mass.co2_most);
    t.end(&format!("{above}: NOx"), |r| &mut r.mass.nox_most);
    t.slip(above, "the product above it", Slip::RangeOfTheProduct);
}

fn kept_and_windows(t: &mut Table) {
    t.part("window");
    t.states("Kept: state 1", &[&[1, 3], &[3], &[1, 2, 3]], |r| &mut r.states.kept);
    t.end("Kept: speed at least 100", |r| &mut r.windows.kept_speed);
    t.slip("Kept speeds and CO2 masses stand in order in lanes of their own", "in reverse", Slip::KeptInReverse);
    t.slip("An accepted call changes only the places named for it", "the rest of a lane is cleared", Slip::RestOfTheLanesCleared);
    let reaches = "where the CO2 sum f to l reaches the reference";
    t.side(reaches, |r| &mut r.windows.window_reaches);
    t.slip("ends at the first l", "at the last", Slip::LastSecondThatReaches);
    t.slip("The window from kept second f", "the next window begins behind the old end", Slip::NextWindowFromTheOldEnd);
    for wrong in [0, 2] {
        t.row("first kept second numbered 1", format!("{wrong} for 1"), |r| r.windows.first_number = wrong);
    }
    t.slip("write its end in the place of its first second", "of its last", Slip::EndInThePlaceOfTheLastSecond);
}

fn sweep(t: &mut Table) {
    t.part("sweep");
    let reaches = "if the mass reaches the reference, close the window";
    t.side(reaches, |r| &mut r.windows.move_reaches);
    t.slip("and drop that second", "and drop all that was taken", Slip::ClosingDropsAllThatWasTaken);
    t.slip("One move", "closing is none", Slip::ClosingIsNoMove);
    let budget = "makes exactly that many, or fewer only because the sweep is over";
    t.slip(budget, "one fewer", Slip::BudgetOneShort);
    t.slip(budget, "one more", Slip::BudgetOneOver);
    t.slip(budget, "stops at a window", Slip::RunStopsAtAWindow);
    t.slip("a budget of moves, 0 allowed", "0 is no limit", Slip::NoBudgetIsNoLimit);
    t.slip("a call writes only the places of windows it closes", "the first call writes all", Slip::AllWindowsWrittenAtOnce);
    t.slip("answers the state and the moves made", "moves since the beginning", Slip::MovesSinceTheBeginning);
    t.slip("The sweep begins with nothing taken", "with one second taken", Slip::BeginsWithASecondTaken);
    t.slip("with none left the sweep is over", "no kept second at all is refused", Slip::NoKeptSecondRefused);
    for wrong in [1, -1] {
        let instead = format!("{wrong} spared");
        t.row("one place per kept second", instead, |r| r.windows.places_spared = wrong);
    }
    let never = "13: sweep state that these kept seconds and this reference never reach";
    for (name, slip) in [
        ("taken", Slip::StateByAllButTaken),
        ("dropped", Slip::StateByAllButDropped),
        ("mass", Slip::StateByAllButMass),
        ("moves", Slip::StateByAllButMoves),
    ] {
        t.slip(never, &format!("{name} not looked at"), slip);
    }
    t.slip(never, "a finished state is refused", Slip::FinishedStateRefused);
}

/// Every rounding; those that are not down; of these those of a number that is never negative.
const EACH_ROUNDING: [Rounding; 4] = [Rounding::Down, Rounding::Up, Rounding::TowardsZero, Rounding::Nearest];
const OTHERS_THAN_DOWN: [Rounding; 3] = [Rounding::Up, Rounding::TowardsZero, Rounding::Nearest];
const UP_AND_NEAREST: [Rounding; 2] = [Rounding::Up, Rounding::Nearest];

fn window_figures(t: &mut Table) {
    t.part("window");
    if t.right.release == 1 {
        rounded_figures(t);
    } else {
        exact_figures(t);
    }
    let faster = "Faster windows have no class";
    t.slip(faster, "they are motorway windows", Slip::FasterWindowsAreMotorway);
    t.slip("Curve c", "without its sign", Slip::CurveWithoutSign);
    t.slip("also below 18,882", "E1 below 18,882", Slip::CurveFlatBelowItsFirstPoint);
    let inside = "Inside: 100w at least (100-lower)c and at most (100+upper)c";
    t.number(inside, |r| &mut r.windows.band.of_figure);
    t.number(&format!("{inside}: lower"), |r| &mut r.windows.band.of_lower);
    t.number(&format!("{inside}: upper"), |r| &mut r.windows.band.of_upper);
    t.side(inside, |r| &mut r.windows.band.least);
    t.side(inside, |r| &mut r.windows.band.most);
    t.slip(inside, "lower and upper exchanged", Slip::TolerancesExchanged);
    t.exchanged("upper tolerances for urban, rural, motorway", &PARTS, |r| &mut r.windows.tolerance_of);
}

const CLASSES: [&str; 3] = ["Urban: v < 45,000", "Rural: to below 80,000", "Motorway: to below 145,000"];

/// Numbers and ends of a line, in the words of a release.
fn line(t: &mut Table, line: usize, sentence: &str, roundings: &[Rounding]) {
    t.number(sentence, |r| &mut r.windows.lines[line].from);
    t.number(sentence, |r| &mut r.windows.lines[line].over);
    t.rounding(sentence, roundings, |r| &mut r.windows.lines[line].rounding);
    let ends = ["its first end", "its second end"];
    t.exchanged(sentence, &ends, |r| &mut r.windows.lines[line].ends);
}

/// The paper as it stands: mean, curve and figure rounded down.
fn rounded_figures(t: &mut Table) {
    let mean = "mean speed is v = floor(10S/n)";
    t.number(mean, |r| &mut r.windows.mean_times);
    t.rounding(mean, &UP_AND_NEAREST, |r| &mut r.windows.mean_rounding);
    for (class, sentence) in CLASSES.into_iter().enumerate() {
        t.end(sentence, |r| &mut r.windows.classes[class]);
    }
    t.slip("Curve c", "0 has nothing inside", Slip::ZeroCurveNeverInside);
    t.end(UP_TO_THE_TURN, |r| &mut r.windows.turn);
    line(t, 0, "E1 + floor((E2-E1)(v-18,882)/37,782)", &OTHERS_THAN_DOWN);
    line(t, 1, "E2 + floor((E3-E2)(v-56,664)/35,333)", &OTHERS_THAN_DOWN);
    let figure = "w = floor(360,000 m / S)";
    t.number(figure, |r| &mut r.windows.kilometre);
    t.rounding(figure, &UP_AND_NEAREST, |r| &mut r.windows.figure_rounding);
}

/// Since L2: nothing is rounded. What rounds the mean for the class alone is told where it is not down,
/// for the borders are whole, and what rounds it for the choice of the line where it is not up.
fn exact_figures(t: &mut Table) {
    let mean = "L2: at the exact mean, v = 10S/n";
    t.number(mean, |r| &mut r.windows.mean_times);
    t.rounding(mean, &EACH_ROUNDING, |r| &mut r.windows.mean_rounding);
    for (class, sentence) in CLASSES.into_iter().enumerate() {
        t.share(sentence, |r| &mut r.windows.classes[class]);
    }
    let class = "L2: at the exact mean: the class alone";
    t.rounding_slip(class, &UP_AND_NEAREST, Slip::ClassByTheMeanRounded);
    let curve = "L2: at the exact mean: the curve alone";
    t.rounding_slip(curve, &EACH_ROUNDING, Slip::CurveByTheMeanRounded);
    t.share(UP_TO_THE_TURN_ITSELF, |r| &mut r.windows.turn);
    let turn = "L2: the first up to 56,664 itself: the choice of the line alone";
    t.rounding_slip(turn, &[Rounding::Down, Rounding::Nearest], Slip::LineByTheMeanRounded);
    line(t, 0, "L2: the unrounded line: E1 + (E2-E1)(v-18,882)/37,782", &EACH_ROUNDING);
    line(t, 1, "L2: the unrounded line: E2 + (E3-E2)(v-56,664)/35,333", &EACH_ROUNDING);
    let figure = "L2: the window figure is the exact quotient, w = 360,000 m / S";
    t.number(figure, |r| &mut r.windows.kilometre);
    t.rounding(figure, &EACH_ROUNDING, |r| &mut r.windows.figure_rounding);
    let both = "L2: both comparisons are made by cross-multiplying";
    for (end, name) in [(End::Lower, "lower"), (End::Upper, "upper")] {
        t.slip(both, &format!("the {name} one of whole figures, as before"), Slip::WholeFiguresInTheComparison(end));
        let border = format!("{both}: the {name} end of the band");
        t.rounding_slip(&border, &EACH_ROUNDING, |rounding| Slip::EndOfTheBandRounded(end, rounding));
    }
    t.slip(both, "of quotients in f64", Slip::ComparedAsReals);
    t.slip(both, "in 64 bits", Slip::ComparedIn64Bits);
}

fn dynamics(t: &mut Table) {
    t.part("D");
    let bins = "Bins by the second's speed: urban up to 6,000, rural up to 9,000";
    t.end(bins, |r| &mut r.dynamics.bins[0]);
    t.end(bins, |r| &mut r.dynamics.bins[1]);
    let d = "D is the next speed minus the previous";
    t.slip(d, "the previous minus the next", Slip::DBackwards);
    t.slip(d, "the next minus its own", Slip::DToTheNextAlone);
    t.slip(d, "its own minus the previous", Slip::DFromThePreviousAlone);
    let outside = "before the first and after the last second the speed is 0";
    t.row(outside, "1 for 0".to_string(), |r| r.dynamics.outside_speed = 1);
    t.slip(outside, "its own", Slip::OwnSpeedOutsideTheTrip);
    t.slip(outside, "there is no D", Slip::NoDAtTheEndsOfTheTrip);
    let missing = "A missing second has no D, nor has one beside it";
    t.slip(missing, "it has", Slip::MissingSecondHasD);
    t.slip(missing, "nor a check second", Slip::CheckSecondsHaveNoD);
    t.slip(missing, "one after it has", Slip::MissingBeforeIgnored);
    t.slip(missing, "one before it has", Slip::MissingAfterIgnored);
    let index = "4: an asked index past the end";
    t.side(index, |r| &mut r.dynamics.index);
    t.slip("by index from 0", "from 1", Slip::IndexFrom1);
    t.slip("4: no second in state 1 or 3 (D)", "not asked of D", Slip::DOfATripWithoutRecordedSeconds);
    t.end("Seconds with D > 72 count", |r| &mut r.dynamics.counts);
    t.slip("P = speed times D", "the next speed", Slip::ProductOfTheNextSpeed);
    t.part("percentile");
    let ranked = "Ranked ascending";
    t.slip(ranked, "descending", Slip::RankedDescending);
    t.slip(ranked, "as they came", Slip::ProductsNotRanked);
    let rank = "j and r the quotient and remainder of 95M by 100";
    for wrong in [94, 96] {
        let change = |r: &mut Rules| r.dynamics.percent = wrong;
        t.row(rank, format!("{wrong} for 95"), change);
    }
    for wrong in [99, 101] {
        let change = |r: &mut Rules| r.dynamics.percent_of = wrong;
        t.row(rank, format!("{wrong} for 100"), change);
    }
    let q = "Q = 100x(j) + r(x(j+1) - x(j))";
    t.number(q, |r| &mut r.dynamics.q_times);
    t.slip(q, "ranks from 0", Slip::RanksFrom0);
    t.slip(q, "without the remainder", Slip::RemainderLeftOut);
    t.slip(q, "the step from x(j-1)", Slip::StepBelowTheRank);
    t.end("12: percentile asked of fewer than 100 values", |r| &mut r.dynamics.percentile_values);
    for wrong in [1, -1] {
        let instead = format!("{wrong} spared");
        t.row("a lent lane with a place for each", instead, |r| r.dynamics.places_spared = wrong);
    }
    t.slip("afterwards it holds urban, then rural, then motorway products", "none of a bin with M below 100", Slip::FewProductsNotRanked);
    t.exchanged("holds urban, then rural, then motorway products", &PARTS, |r| &mut r.dynamics.ranked_bins);
}

fn lively_and_dull(t: &mut Table) {
    t.part("lively");
    let turn = "too lively: if S ≤ 7,460N";
    t.share(turn, |r| &mut r.dynamics.lively.turn);
    let slow = "5QN > 176,256S + 1,871,424,000N";
    t.number(slow, |r| &mut r.dynamics.lively.slow.of_qn);
    t.number(slow, |r| &mut r.dynamics.lively.slow.of_s);
    t.number(slow, |r| &mut r.dynamics.lively.slow.of_n);
    let fast = "else 25QN > 480,816S + 12,289,968,000N";
    t.number(fast, |r| &mut r.dynamics.lively.fast.of_qn);
    t.number(fast, |r| &mut r.dynamics.lively.fast.of_s);
    t.number(fast, |r| &mut r.dynamics.lively.fast.of_n);
    t.side("too lively: above", |r| &mut r.dynamics.lively.too);
    t.part("dull");
    t.share("too dull: if S ≤ 9,405N", |r| &mut r.dynamics.dull.turn);
    let slow = "3,125TN + 36S² < 394,875SN";
    t.number(slow, |r| &mut r.dynamics.dull.of_tn);
    t.number(slow, |r| &mut r.dynamics.dull.of_ss);
    t.number(slow, |r| &mut r.dynamics.dull.of_sn);
    t.number("else T < 18S", |r| &mut r.dynamics.dull.of_s);
    t.side("too dull: below", |r| &mut r.dynamics.dull.too);
    t.part("reason 12");
    t.slip("With S, N the bin's sums of speeds and seconds", "of seconds with D", Slip::SumsOfSecondsWithD);
    t.part("lively");
    t.slip("lets the low half turn over, its carry counted", "the carry is lost", Slip::CarryLost);
}

fn climb(t: &mut Table) {
    t.part("climb");
    let held = "if 648d² > 25s² the corrected altitude is the previous corrected one";
    t.number(held, |r| &mut r.climb.change);
    t.number(held, |r| &mut r.climb.speed);
    t.side(held, |r| &mut r.climb.held);
    t.slip("The first second with an altitude stands as recorded", "it is compared with 0", Slip::FirstAltitudeComparedWithZero);
    t.slip("A check second counts with its altitude", "it does not", Slip::CheckSecondsHaveNoAltitude);
    t.slip("d the change of recorded altitude from the second before", "from its corrected one", Slip::ChangeFromTheCorrectedAltitude);
    t.slip("s this second's speed", "the one before", Slip::SpeedOfTheSecondBefore);
    t.slip("the first after a missing one, stand as recorded", "only the first of the trip", Slip::GapPassedOverInTheCorrection);
    let climb = "Climb is the sum of upward steps";
    t.slip(climb, "downward ones", Slip::StepsDownCounted);
    t.slip(climb, "steps both ways", Slip::StepsBothWaysCounted);
    t.slip("between successive corrected altitudes", "recorded ones", Slip::ClimbOfRecordedAltitudes);
    t.slip("missing seconds passed over", "no step over a gap", Slip::NoStepOverAGap);
}

fn reasons_0_to_7(t: &mut Table) {
    t.part("reason 0");
    t.range("0: n outside 5,400 to 7,200", |r| &mut r.reasons.seconds);
    t.slip("n is all seconds", "those not missing", Slip::SecondsWithoutTheMissing);
    t.part("reason 1");
    let missing = "1: 100 times missing not below n";
    t.number(missing, |r| &mut r.reasons.missing_times);
    t.side(missing, |r| &mut r.reasons.missing);
    let in_a_row = "1: or over 30 missing in a row";
    t.end(in_a_row, |r| &mut r.reasons.missing_in_a_row);
    t.slip(in_a_row, "not at the start", Slip::RunAtTheStartPassedOver);
    t.slip(in_a_row, "not at the end", Slip::RunAtTheEndPassedOver);
    t.part("reason 2");
    for (part, name) in PARTS.iter().enumerate() {
        t.end(&format!("2: a part's S below 5,760,000: {name}"), |r| &mut r.reasons.part_distance[part]);
    }
    t.left_out("2: a part's S", &PARTS, |r| &mut r.reasons.parts_of_2);
    t.part("reason 3");
    let shares = ["3: a part's share of S outside, in percent, urban 29 to 44", "3: rural 23 to 43", "3: motorway 23 to 43"];
    for (part, sentence) in shares.into_iter().enumerate() {
        t.share(sentence, |r| &mut r.reasons.share[part].least);
        t.share(sentence, |r| &mut r.reasons.share[part].most);
    }
    t.left_out("3: a part's share", &PARTS, |r| &mut r.reasons.parts_of_3);
    t.slip("3: share of S", "share of the seconds", Slip::ShareOfSecondsInReason3);
    let by_crossing = "Means and shares are compared by cross-multiplying";
    let rounded = "rounded down first, in reason";
    t.slip(by_crossing, &format!("{rounded} 3"), Slip::ShareRoundedInReason3);
    t.slip("3: a part's share of S", "no distance sets it", Slip::NoDistanceSets3);
    t.part("reason 4");
    let mean = "4: urban mean outside 1,500 to 4,000";
    t.share(mean, |r| &mut r.reasons.mean.least);
    t.share(mean, |r| &mut r.reasons.mean.most);
    t.row(mean, "rural mean".to_string(), |r| r.reasons.part_of_4 = 1);
    t.slip(by_crossing, &format!("{rounded} 4"), Slip::MeanRoundedInReason4);
    let empty = "an empty bin sets neither 4 nor 5";
    t.slip(empty, "it sets 4", Slip::EmptyBinSets4);
    t.part("reason 5");
    let standing = "5: urban seconds below 100 not 6 to 30 percent of urban seconds";
    t.end(standing, |r| &mut r.reasons.stands);
    t.share(standing, |r| &mut r.reasons.standing.least);
    t.share(standing, |r| &mut r.reasons.standing.most);
    t.slip(standing, "of all seconds", Slip::StandingOfAllSeconds);
    t.slip(by_crossing, &format!("{rounded} 5"), Slip::StandingShareRounded);
    t.slip(empty, "it sets 5", Slip::EmptyBinSets5);
    t.part("reason 6");
    let fast = "6: fewer than 300 seconds above 10,000";
    t.end(fast, |r| &mut r.reasons.fast);
    t.end(fast, |r| &mut r.reasons.fast_seconds);
    t.slip("A check second counts with its speed", "not in the counts of speeds", Slip::CheckSecondsNotCountedBySpeed);
    t.slip("The values of a missing second are ignored", "counted by speed", Slip::MissingSecondsCountedBySpeed);
    t.part("reason 7");
    t.end("7: a speed above 16,000", |r| &mut r.reasons.too_fast);
    let share = "7: or seconds above 14,500 over 3 percent of motorway seconds";
    t.end(share, |r| &mut r.reasons.very_fast);
    t.share(share, |r| &mut r.reasons.fast_share.most);
    t.slip(by_crossing, &format!("{rounded} 7"), Slip::FastShareRounded);
    t.slip(share, "an empty bin sets it", Slip::EmptyBinSets7);
    t.slip(share, "of all seconds", Slip::FastOfAllSeconds);
    t.slip(share, "of all seconds not missing", Slip::FastOfRecordedSeconds);
}

fn reasons_8_to_15(t: &mut Table) {
    t.part("reason 8");
    let ends = "8: first and last recorded altitude differ by over 10,000";
    t.end(ends, |r| &mut r.reasons.altitude_difference);
    t.slip(ends, "only a rise", Slip::OnlyARiseInReason8);
    t.slip(ends, "only a fall", Slip::OnlyAFallInReason8);
    t.slip(ends, "of the very first and last second", Slip::AltitudesOfTheVeryEnds);
    t.slip(ends, "corrected ones", Slip::CorrectedAltitudesInReason8);
    t.part("reason 9");
    let highest = "9: a corrected altitude above 130,000";
    t.end(highest, |r| &mut r.reasons.highest);
    t.slip(highest, "a recorded one", Slip::RecordedAltitudeInReason9);
    t.part("reason 10");
    let climb = "10: 300 times climb not below total S";
    t.number(climb, |r| &mut r.reasons.climb_times);
    t.side(climb, |r| &mut r.reasons.climb);
    t.part("reason 11");
    t.end("11: a bin with M below 100", |r| &mut r.reasons.products);
    t.left_out("11: a bin", &PARTS, |r| &mut r.reasons.parts_of_11);
    t.slip(JUDGED_FOR_NEITHER, "it is for 12", Slip::LivelyJudgedOfFewProducts);
    t.slip(JUDGED_FOR_NEITHER, "it is for 13", Slip::DullJudgedOfFewProducts);
    t.part("reason 12");
    t.left_out("12: a bin too lively", &PARTS, |r| &mut r.reasons.parts_of_12);
    t.part("reason 13");
    t.left_out("13: a bin too dull", &PARTS, |r| &mut r.reasons.parts_of_13);
    t.part("reason 14");
    t.end("14: a class without windows", |r| &mut r.reasons.class_windows);
    t.left_out("14: a class without windows", &PARTS, |r| &mut r.reasons.parts_of_14);
    t.part("reason 15");
    let half = "15: a class with windows, under half inside";
    t.number(half, |r| &mut r.reasons.half_times);
    t.side(half, |r| &mut r.reasons.half);
    t.left_out(half, &PARTS, |r| &mut r.reasons.parts_of_15);
    t.slip(half, "a class without windows too", Slip::ClassWithoutWindowsSets15);
    t.part("reason");
    let bits = ["0", "1", "2", "3", "4", "5", "6", "7", "8", "9", "10", "11", "12", "13", "14", "15"];
    t.exchanged("a bit per reason", &bits, |r| &mut r.reasons.bits);
}

fn answer_and_printed(t: &mut Table) {
    t.part("trip");
    t.end("Q (zero where M is below 100)", |r| &mut r.dynamics.q_given);
    t.slip("Q (zero where M is below 100)", "T too", Slip::TZeroWithQ);
    t.slip("windows, unclassed ones too", "only classed ones", Slip::UnclassedWindowsNotCounted);
    t.slip("A check second counts with its speed", "not in the tallies", Slip::CheckSecondsNotTallied);
    t.slip("seconds, distance, CO2 and NOx", "CO2 and NOx exchanged", Slip::Co2AndNoxExchangedInTheTallies);
    t.exchanged("for each of three bins", &PARTS, |r| &mut r.printed.answer_bins);
    t.exchanged("for each class windows", &PARTS, |r| &mut r.printed.answer_classes);
    t.part("program");
    let line_1 = ["seconds", "missing", "kept"];
    t.exchanged("Line 1: all seconds, missing, kept", &line_1, |r| &mut r.printed.line_1);
    t.exchanged("line 2: windows and moves", &["windows", "moves"], |r| &mut r.printed.line_2);
    t.exchanged("Class lines: urban, rural, motorway", &PARTS, |r| &mut r.printed.classes);
    let class_line = ["windows", "windows inside"];
    t.exchanged("Class lines: windows, windows inside", &class_line, |r| &mut r.printed.class_line);
    let reasons = "Reasons: four lower-case hex digits";
    t.slip(reasons, "capitals", Slip::ReasonsInCapitals);
    t.slip(reasons, "no leading zeros", Slip::ReasonsWithoutLeadingZeros);
    t.slip(reasons, "decimal", Slip::ReasonsInDecimal);
    t.slip("refused R at P", "P and R exchanged", Slip::PlaceBeforeTheNumber);
}
