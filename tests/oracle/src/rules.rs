//! What the independent program reads by: every number, end, order and choice of the paper, by
//! name, with its sentence. A release of the meaning is one value of [`Rules`]; a wrong reading
//! (`wrong`) is one with a single thing changed.

use crate::bound::{above, at_least, at_most, below, range, Bound, Range, Rounding, Side};
use crate::numbers::{
    CHECK, ENDS_INSIDE_ITEM, MEASURED, MISSING, MOTORWAY, PLAN_ABSENT_LATE_OR_REPEATED, RURAL,
    URBAN,
};

/// Everything that a reading of the paper fixes.
#[derive(Clone, Debug)]
pub struct Rules {
    /// The number of the release; a wrong reading has that of the release that it misreads.
    pub release: u32,
    pub ranges: Ranges,
    pub limits: Limits,
    pub states: States,
    pub lanes: Lanes,
    pub orders: Orders,
    pub stream: StreamRules,
    pub writer: WriterRules,
    pub mass: MassRules,
    pub windows: WindowRules,
    pub dynamics: DynamicsRules,
    pub climb: ClimbRules,
    pub reasons: ReasonRules,
    pub printed: PrintedRules,
    /// A sentence misread otherwise than by a number, an end, an order or a choice; none in a
    /// release.
    pub slip: Option<Slip>,
    /// What the writer alone reads by, where it misreads what it shares with the other calls; none
    /// in a release.
    pub writer_alone: Option<Box<Rules>>,
}

impl Rules {
    pub fn slips(&self, slip: Slip) -> bool {
        self.slip == Some(slip)
    }

    /// What the writer reads by.
    pub fn of_the_writer(&self) -> &Rules {
        self.writer_alone.as_deref().unwrap_or(self)
    }
}

/// "Units and ranges".
#[derive(Clone, Debug)]
pub struct Ranges {
    pub speed: Range<i128>,
    pub altitude: Range<i128>,
    pub co2: Range<i128>,
    pub nox: Range<i128>,
    pub reference: Range<i128>,
    /// E1, E2, E3.
    pub curve: [Range<i128>; 3],
    /// Lower; upper for urban, rural, motorway.
    pub tolerances: [Range<i128>; 4],
    pub product: Range<i128>,
}

/// "A trip has at most 8,192 seconds"; 2: "more than 8,192 seconds or values", call by call.
#[derive(Clone, Debug)]
pub struct Limits {
    pub stream: Bound<i128>,
    pub trip: Bound<i128>,
    pub d: Bound<i128>,
    pub sweep: Bound<i128>,
    pub percentile: Bound<i128>,
    pub writer: Bound<i128>,
}

/// What each state says of a second.
#[derive(Clone, Debug)]
pub struct States {
    /// "1 measured, 2 missing, 3 instrument check"
    pub known: &'static [u8],
    pub missing: &'static [u8],
    /// "In states 1 and 3 every value is present."
    pub recorded: &'static [u8],
    /// "The values of a missing second are ignored and not range-checked."
    pub range_checked: &'static [u8],
    /// "A check second counts with its speed and altitude, not with its masses."
    pub with_masses: &'static [u8],
    /// "Kept: state 1 and .."
    pub kept: &'static [u8],
}

/// Which lanes are asked for their length.
#[derive(Clone, Debug)]
pub struct Lanes {
    /// 1: states, speeds, altitudes, CO2, NOx.
    pub of_one_length: Vec<usize>,
    /// 6 in the stream: the same five.
    pub of_the_stream: Vec<usize>,
    /// 6 in the trip: kept speeds, kept CO2, ends, ranks.
    pub lent: Vec<usize>,
}

/// The order in which a call refuses.
#[derive(Clone, Debug)]
pub struct Order {
    pub numbers: Vec<u8>,
    /// Two of them the other way round: the second counts where the first would, if both hold.
    pub exchanged: Option<(u8, u8)>,
}

fn order(numbers: &[u8]) -> Order {
    Order {
        numbers: numbers.to_vec(),
        exchanged: None,
    }
}

/// "Orders".
#[derive(Clone, Debug)]
pub struct Orders {
    pub stream: Order,
    pub trip: Order,
    pub sweep: Order,
    pub percentile: Order,
    pub mass: Order,
    pub item: Order,
    pub d: Order,
    pub writer: Order,
}

/// A value in an item's body.
#[derive(Clone, Copy, Debug, PartialEq, Eq)]
pub enum Value {
    Reference,
    E1,
    E2,
    E3,
    Lower,
    /// Of a class.
    Upper(usize),
    Speed,
    Altitude,
    Co2,
    Nox,
}

/// What an item of a kind is.
#[derive(Clone, Copy, Debug, PartialEq, Eq)]
pub enum Holds {
    Plan,
    Measured,
    Missing,
    Check,
}

/// A row of the table of kinds.
#[derive(Clone, Debug)]
pub struct Kind {
    pub byte: u8,
    pub body: usize,
    pub holds: Holds,
    /// The values in their order, each with its bytes.
    pub layout: Vec<(Value, usize)>,
}

/// "The trip stream".
#[derive(Clone, Debug)]
pub struct StreamRules {
    pub kinds: Vec<Kind>,
    /// "an empty stream is 11 at 0"
    pub empty_stream: u8,
    /// "an empty slice is 7"
    pub empty_slice: u8,
}

/// "Write streams as well as read them" (L1); the items are those of the table of kinds.
#[derive(Clone, Debug)]
pub struct WriterRules {
    /// What a second of each state is written as.
    pub written_as: Vec<(u8, Holds)>,
    /// How many bytes the buffer may lack: "6 for a short buffer".
    pub bytes_spared: i128,
}

/// A kind of reading.
#[derive(Clone, Copy, Debug, PartialEq, Eq)]
pub enum ReadingKind {
    WetPpm,
    DryPpm,
    WetPercent,
    DryPercent,
}

/// A product of the mass step.
#[derive(Clone, Copy, Debug, PartialEq, Eq)]
pub enum Step {
    PercentTimes,
    DryTimesTheFactor,
    TimesU,
    TimesFlow,
    TimesScale,
}

/// "From concentration to mass".
#[derive(Clone, Debug)]
pub struct MassRules {
    pub kinds: Vec<ReadingKind>,
    pub ppm: Range<f64>,
    pub percent: Range<f64>,
    pub u: Range<f64>,
    pub factor: Range<f64>,
    pub flow: Range<f64>,
    pub percent_times: f64,
    pub co2_scale: f64,
    pub nox_scale: f64,
    pub steps: Vec<Step>,
    /// "The whole part of the last product is the answer".
    pub rounding: Rounding,
    /// 10: "the whole-part mass above the second's range"
    pub co2_most: Bound<i128>,
    pub nox_most: Bound<i128>,
}

/// One line of the curve.
#[derive(Clone, Debug)]
pub struct Line {
    /// Which of E1, E2, E3 it runs from and to.
    pub ends: [usize; 2],
    pub from: i128,
    pub over: i128,
    /// None where the line is not rounded.
    pub rounding: Option<Rounding>,
}

/// "Inside: 100w at least (100-lower)c and at most (100+upper)c."
#[derive(Clone, Debug)]
pub struct Band {
    pub of_figure: i128,
    pub of_lower: i128,
    pub of_upper: i128,
    pub least: Side,
    pub most: Side,
}

/// The two ends of the band, and the two comparisons with them.
#[derive(Clone, Copy, Debug, PartialEq, Eq)]
pub enum End {
    Lower,
    Upper,
}

/// "Kept seconds and windows".
#[derive(Clone, Debug)]
pub struct WindowRules {
    pub kept_speed: Bound<i128>,
    /// "where the CO2 sum f to l reaches the reference"
    pub window_reaches: Side,
    /// "if the mass reaches the reference, close the window"
    pub move_reaches: Side,
    /// "first kept second numbered 1"
    pub first_number: usize,
    /// How many places the lane of ends may lack: "one place per kept second".
    pub places_spared: i128,
    /// "v = floor(10S/n)"
    pub mean_times: i128,
    /// None where the mean is not rounded.
    pub mean_rounding: Option<Rounding>,
    pub classes: [Bound<i128>; 3],
    /// "for v up to 56,664"
    pub turn: Bound<i128>,
    pub lines: [Line; 2],
    /// "w = floor(360,000 m / S)"
    pub kilometre: i128,
    /// None where the figure is not rounded.
    pub figure_rounding: Option<Rounding>,
    pub band: Band,
    /// Which upper tolerance each class has.
    pub tolerance_of: [usize; 3],
}

/// One line of "too lively": `of_qn` QN > `of_s` S + `of_n` N.
#[derive(Clone, Debug)]
pub struct LivelyLine {
    pub of_qn: i128,
    pub of_s: i128,
    pub of_n: i128,
}

#[derive(Clone, Debug)]
pub struct Lively {
    pub turn: Bound<i128>,
    pub slow: LivelyLine,
    pub fast: LivelyLine,
    pub too: Side,
}

/// "too dull": `of_tn` TN + `of_ss` S² < `of_sn` SN; else T < `of_s` S.
#[derive(Clone, Debug)]
pub struct Dull {
    pub turn: Bound<i128>,
    pub of_tn: i128,
    pub of_ss: i128,
    pub of_sn: i128,
    pub of_s: i128,
    pub too: Side,
}

/// "Dynamics".
#[derive(Clone, Debug)]
pub struct DynamicsRules {
    /// Urban and rural; motorway is above.
    pub bins: [Bound<i128>; 2],
    /// "before the first and after the last second the speed is 0"
    pub outside_speed: i128,
    /// "Seconds with D > 72 count"
    pub counts: Bound<i128>,
    /// 4: "an asked index past the end": what an index is to the number of seconds.
    pub index: Side,
    /// "quotient and remainder of 95M by 100"
    pub percent: usize,
    pub percent_of: usize,
    /// "Q = 100x(j) + .."
    pub q_times: i128,
    /// 12: "percentile asked of fewer than 100 values"
    pub percentile_values: Bound<i128>,
    /// How many places the ranking lane may lack: "a place for each".
    pub places_spared: i128,
    /// "Q (zero where M is below 100)"
    pub q_given: Bound<i128>,
    /// "urban, then rural, then motorway products"
    pub ranked_bins: [usize; 3],
    pub lively: Lively,
    pub dull: Dull,
}

/// "Climb": `change` d² > `speed` s² is held.
#[derive(Clone, Debug)]
pub struct ClimbRules {
    pub change: i128,
    pub speed: i128,
    pub held: Side,
}

/// "The sixteen reasons": what passes each, so that the reason does not hold.
#[derive(Clone, Debug)]
pub struct ReasonRules {
    /// 0
    pub seconds: Range<i128>,
    /// 1: "100 times missing not below n"
    pub missing_times: i128,
    pub missing: Side,
    pub missing_in_a_row: Bound<i128>,
    /// 2
    pub part_distance: [Bound<i128>; 3],
    pub parts_of_2: Vec<usize>,
    /// 3, in percent
    pub share: [Range<i128>; 3],
    pub parts_of_3: Vec<usize>,
    /// 4
    pub mean: Range<i128>,
    pub part_of_4: usize,
    /// 5: "urban seconds below 100"
    pub stands: Bound<i128>,
    pub standing: Range<i128>,
    /// 6: "seconds above 10,000"
    pub fast: Bound<i128>,
    pub fast_seconds: Bound<i128>,
    /// 7: "a speed above 16,000", "seconds above 14,500"
    pub too_fast: Bound<i128>,
    pub very_fast: Bound<i128>,
    pub fast_share: Range<i128>,
    /// 8
    pub altitude_difference: Bound<i128>,
    /// 9
    pub highest: Bound<i128>,
    /// 10: "300 times climb not below total S"
    pub climb_times: i128,
    pub climb: Side,
    /// 11
    pub products: Bound<i128>,
    pub parts_of_11: Vec<usize>,
    pub parts_of_12: Vec<usize>,
    pub parts_of_13: Vec<usize>,
    /// 14: "a class without windows"
    pub class_windows: Bound<i128>,
    pub parts_of_14: Vec<usize>,
    /// 15: "under half inside"
    pub half_times: i128,
    pub half: Side,
    pub parts_of_15: Vec<usize>,
    /// The bit of each reason.
    pub bits: [usize; 16],
}

/// The trip's answer and "the printed case": which figure stands where.
#[derive(Clone, Debug)]
pub struct PrintedRules {
    /// "for each of three bins": urban, rural, motorway.
    pub answer_bins: [usize; 3],
    /// "for each class": urban, rural, motorway.
    pub answer_classes: [usize; 3],
    /// "all seconds, missing, kept"
    pub line_1: [usize; 3],
    /// "windows, unclassed ones too, and moves"
    pub line_2: [usize; 2],
    /// Urban, rural, motorway.
    pub classes: [usize; 3],
    /// "windows, windows inside"
    pub class_line: [usize; 2],
}

/// Sentences misread otherwise than by a number, an end, an order or a choice.
#[derive(Clone, Copy, Debug, PartialEq, Eq)]
pub enum Slip {
    LastBadSecond,
    LastBadValue,
    NoPlaceOfABadSecond,
    LastBadItem,
    LittleEndian,
    AltitudeWithoutSign,
    AltitudeBySignAndMagnitude,
    LengthWithoutTheKindByte,
    MissingSecondLeavesTheLanes,
    SecondsBeforeABadItemWritten,
    BlocksWrittenOnlyWhenAccepted,
    PlaceBeyondTheSecondsWritten,
    PlanMayBeRepeated,
    PlanMayBeLate,
    PlanMayBeAbsent,
    PlanAloneRefused,
    PlaceBehindTheItem,
    PlaceByItem,
    PlanWrittenLast,
    MissingSecondsAtTheEndLeftOut,
    StandingSecondsAtTheEndLeftOut,
    NoSecondAtAllRefused,
    RoomForTheValuesOfEverySecond,
    RestOfTheBufferCleared,
    ByteBehindTheStreamWritten,
    BytesWithoutThePlan,
    ItemsForBytes,
    BytesAskedForGivenWith6,
    ShortBufferFilled,
    SecondsBeforeABadOneWritten,
    OffsetOfABadSecond,
    PlaceOfAShortBuffer,
    NotANumberIsZero,
    NegativeZeroReadingRefused,
    NegativeZeroFlowRefused,
    WetTimesTheFactor,
    NoRoundingOfProducts,
    RangeOfTheProduct,
    FactorNotAskedOfWetReadings,
    KeptInReverse,
    RestOfTheLanesCleared,
    LastSecondThatReaches,
    NextWindowFromTheOldEnd,
    EndInThePlaceOfTheLastSecond,
    ClosingDropsAllThatWasTaken,
    ClosingIsNoMove,
    StateByAllButTaken,
    StateByAllButDropped,
    StateByAllButMass,
    StateByAllButMoves,
    FinishedStateRefused,
    BudgetOneShort,
    BudgetOneOver,
    NoBudgetIsNoLimit,
    RunStopsAtAWindow,
    AllWindowsWrittenAtOnce,
    MovesSinceTheBeginning,
    BeginsWithASecondTaken,
    NoKeptSecondRefused,
    FasterWindowsAreMotorway,
    CurveWithoutSign,
    ZeroCurveNeverInside,
    CurveFlatBelowItsFirstPoint,
    TolerancesExchanged,
    ClassByTheMeanRounded(Rounding),
    CurveByTheMeanRounded(Rounding),
    LineByTheMeanRounded(Rounding),
    WholeFiguresInTheComparison(End),
    EndOfTheBandRounded(End, Rounding),
    ComparedAsReals,
    ComparedIn64Bits,
    UnclassedWindowsNotCounted,
    NoDAtTheEndsOfTheTrip,
    OwnSpeedOutsideTheTrip,
    MissingSecondHasD,
    CheckSecondsHaveNoD,
    MissingBeforeIgnored,
    MissingAfterIgnored,
    DBackwards,
    DToTheNextAlone,
    DFromThePreviousAlone,
    DOfATripWithoutRecordedSeconds,
    IndexFrom1,
    ProductOfTheNextSpeed,
    ProductsNotRanked,
    RankedDescending,
    RanksFrom0,
    RemainderLeftOut,
    StepBelowTheRank,
    TZeroWithQ,
    FewProductsNotRanked,
    SumsOfSecondsWithD,
    CarryLost,
    FirstAltitudeComparedWithZero,
    CheckSecondsHaveNoAltitude,
    ChangeFromTheCorrectedAltitude,
    SpeedOfTheSecondBefore,
    GapPassedOverInTheCorrection,
    NoStepOverAGap,
    ClimbOfRecordedAltitudes,
    StepsDownCounted,
    StepsBothWaysCounted,
    RoomForKeptSecondsAlone,
    SecondsWithoutTheMissing,
    RunAtTheStartPassedOver,
    RunAtTheEndPassedOver,
    ShareOfSecondsInReason3,
    ShareRoundedInReason3,
    NoDistanceSets3,
    MeanRoundedInReason4,
    EmptyBinSets4,
    StandingOfAllSeconds,
    StandingShareRounded,
    EmptyBinSets5,
    CheckSecondsNotCountedBySpeed,
    MissingSecondsCountedBySpeed,
    CheckSecondsNotTallied,
    FastShareRounded,
    EmptyBinSets7,
    FastOfAllSeconds,
    FastOfRecordedSeconds,
    OnlyARiseInReason8,
    OnlyAFallInReason8,
    AltitudesOfTheVeryEnds,
    CorrectedAltitudesInReason8,
    RecordedAltitudeInReason9,
    LivelyJudgedOfFewProducts,
    DullJudgedOfFewProducts,
    ClassWithoutWindowsSets15,
    Co2AndNoxExchangedInTheTallies,
    ReasonsInCapitals,
    ReasonsWithoutLeadingZeros,
    ReasonsInDecimal,
    PlaceBeforeTheNumber,
}

/// The newest release that the independent program answers by.
pub const NEWEST: u32 = 2;

/// The rules of a release of the meaning; none where there is no such release.
pub fn release(number: u32) -> Option<Rules> {
    match number {
        1 => Some(release_1()),
        2 => Some(release_2()),
        _ => None,
    }
}

/// The paper as it stands.
fn release_1() -> Rules {
    Rules {
        release: 1,
        ranges: ranges(),
        limits: Limits {
            stream: at_most(8_192),
            trip: at_most(8_192),
            d: at_most(8_192),
            sweep: at_most(8_192),
            percentile: at_most(8_192),
            writer: at_most(8_192),
        },
        states: States {
            known: &[MEASURED, MISSING, CHECK],
            missing: &[MISSING],
            recorded: &[MEASURED, CHECK],
            range_checked: &[MEASURED, CHECK],
            with_masses: &[MEASURED],
            kept: &[MEASURED],
        },
        lanes: Lanes {
            of_one_length: vec![0, 1, 2, 3, 4],
            of_the_stream: vec![0, 1, 2, 3, 4],
            lent: vec![0, 1, 2, 3],
        },
        orders: Orders {
            stream: order(&[8, 7, 11, 5, 3, 2, 6]),
            trip: order(&[5, 1, 2, 6, 3, 4]),
            sweep: order(&[5, 2, 6, 3, 13]),
            percentile: order(&[2, 12, 6, 3]),
            mass: order(&[9, 10]),
            item: order(&[8, 7, 5, 3]),
            d: order(&[1, 2, 3, 4]),
            // "Refusals: 5, 1, 2, 3, then 6 for a short buffer"
            writer: order(&[5, 1, 2, 3, 6]),
        },
        stream: StreamRules {
            kinds: kinds(),
            empty_stream: PLAN_ABSENT_LATE_OR_REPEATED,
            empty_slice: ENDS_INSIDE_ITEM,
        },
        writer: WriterRules {
            written_as: vec![
                (MEASURED, Holds::Measured),
                (MISSING, Holds::Missing),
                (CHECK, Holds::Check),
            ],
            bytes_spared: 0,
        },
        mass: mass(),
        windows: windows(),
        dynamics: dynamics(),
        // "if 648d² > 25s² the corrected altitude is the previous corrected one"
        climb: ClimbRules {
            change: 648,
            speed: 25,
            held: Side::Above,
        },
        reasons: reasons(),
        printed: PrintedRules {
            answer_bins: [URBAN, RURAL, MOTORWAY],
            answer_classes: [URBAN, RURAL, MOTORWAY],
            line_1: [0, 1, 2],
            line_2: [0, 1],
            classes: [URBAN, RURAL, MOTORWAY],
            class_line: [0, 1],
        },
        slip: None,
        writer_alone: None,
    }
}

/// "Judge the band on the true fractions" (L2): "the curve is the unrounded line at the exact mean (the
/// first up to 56,664 itself), the window figure is the exact quotient, and both comparisons are made
/// by cross-multiplying".
fn release_2() -> Rules {
    let mut rules = release_1();
    rules.release = 2;
    let windows = &mut rules.windows;
    windows.mean_rounding = None;
    for line in &mut windows.lines {
        line.rounding = None;
    }
    windows.figure_rounding = None;
    rules
}

fn ranges() -> Ranges {
    Ranges {
        // "Speed: 0.01 km/h, 0 to 25,000. Altitude: cm, -50,000 to 500,000. CO2: mg in the second,
        // 0 to 100,000. NOx: µg in the second, 0 to 10,000,000."
        speed: range(0, 25_000),
        altitude: range(-50_000, 500_000),
        co2: range(0, 100_000),
        nox: range(0, 10_000_000),
        // "Plan: reference CO2 mass in mg .., 1 to 20,000,000; curve values E1, E2, E3 in mg/km,
        // each 1 to 2,000,000; lower tolerance and upper tolerances .., each 0 to 100."
        reference: range(1, 20_000_000),
        curve: [range(1, 2_000_000); 3],
        tolerances: [range(0, 100); 4],
        // "products in any order, each 0 to 625,000,000"
        product: range(0, 625_000_000),
    }
}

/// The table of kinds.
fn kinds() -> Vec<Kind> {
    use Value::*;
    let plan = vec![
        (Reference, 4),
        (E1, 4),
        (E2, 4),
        (E3, 4),
        (Lower, 1),
        (Upper(URBAN), 1),
        (Upper(RURAL), 1),
        (Upper(MOTORWAY), 1),
    ];
    let measured = vec![(Speed, 2), (Altitude, 4), (Co2, 4), (Nox, 4)];
    let kind = |byte, body, holds, layout| Kind {
        byte,
        body,
        holds,
        layout,
    };
    vec![
        kind(0x10, 20, Holds::Plan, plan),
        kind(0x01, 14, Holds::Measured, measured.clone()),
        kind(0x02, 0, Holds::Missing, Vec::new()),
        kind(0x03, 14, Holds::Check, measured),
    ]
}

fn mass() -> MassRules {
    MassRules {
        kinds: vec![
            ReadingKind::WetPpm,
            ReadingKind::DryPpm,
            ReadingKind::WetPercent,
            ReadingKind::DryPercent,
        ],
        // "Ppm runs 0 to 200,000, percent 0 to 20"
        ppm: range(0.0, 200_000.0),
        percent: range(0.0, 20.0),
        // "u (above 0, at most 0.01), the dry-wet factor (above 0, at most 1) and exhaust flow in
        // kg/s (0 to 1)"
        u: Range {
            least: above(0.0),
            most: at_most(0.01),
        },
        factor: Range {
            least: above(0.0),
            most: at_most(1.0),
        },
        flow: range(0.0, 1.0),
        // "percent times 10,000; dry times the factor; u times that; times flow; times 1,000 for
        // CO2 in mg or 1,000,000 for NOx in µg"
        percent_times: 10_000.0,
        co2_scale: 1_000.0,
        nox_scale: 1_000_000.0,
        steps: vec![
            Step::PercentTimes,
            Step::DryTimesTheFactor,
            Step::TimesU,
            Step::TimesFlow,
            Step::TimesScale,
        ],
        rounding: Rounding::Down,
        co2_most: at_most(100_000),
        nox_most: at_most(10_000_000),
    }
}

fn windows() -> WindowRules {
    WindowRules {
        kept_speed: at_least(100),
        window_reaches: Side::AtLeast,
        move_reaches: Side::AtLeast,
        first_number: 1,
        places_spared: 0,
        mean_times: 10,
        mean_rounding: Some(Rounding::Down),
        classes: [below(45_000), below(80_000), below(145_000)],
        turn: at_most(56_664),
        lines: [
            // "E1 + floor((E2-E1)(v-18,882)/37,782)"
            Line {
                ends: [0, 1],
                from: 18_882,
                over: 37_782,
                rounding: Some(Rounding::Down),
            },
            // "E2 + floor((E3-E2)(v-56,664)/35,333)"
            Line {
                ends: [1, 2],
                from: 56_664,
                over: 35_333,
                rounding: Some(Rounding::Down),
            },
        ],
        kilometre: 360_000,
        figure_rounding: Some(Rounding::Down),
        band: Band {
            of_figure: 100,
            of_lower: 100,
            of_upper: 100,
            least: Side::AtLeast,
            most: Side::AtMost,
        },
        tolerance_of: [URBAN, RURAL, MOTORWAY],
    }
}

fn dynamics() -> DynamicsRules {
    DynamicsRules {
        bins: [at_most(6_000), at_most(9_000)],
        outside_speed: 0,
        counts: above(72),
        index: Side::Below,
        percent: 95,
        percent_of: 100,
        q_times: 100,
        percentile_values: at_least(100),
        places_spared: 0,
        q_given: at_least(100),
        ranked_bins: [URBAN, RURAL, MOTORWAY],
        // "if S ≤ 7,460N, 5QN > 176,256S + 1,871,424,000N; else 25QN > 480,816S + 12,289,968,000N"
        lively: Lively {
            turn: at_most(7_460),
            slow: LivelyLine {
                of_qn: 5,
                of_s: 176_256,
                of_n: 1_871_424_000,
            },
            fast: LivelyLine {
                of_qn: 25,
                of_s: 480_816,
                of_n: 12_289_968_000,
            },
            too: Side::Above,
        },
        // "if S ≤ 9,405N, 3,125TN + 36S² < 394,875SN; else T < 18S"
        dull: Dull {
            turn: at_most(9_405),
            of_tn: 3_125,
            of_ss: 36,
            of_sn: 394_875,
            of_s: 18,
            too: Side::Below,
        },
    }
}

fn reasons() -> ReasonRules {
    let parts = || vec![URBAN, RURAL, MOTORWAY];
    ReasonRules {
        // 0: n outside 5,400 to 7,200.
        seconds: range(5_400, 7_200),
        // 1: 100 times missing not below n, or over 30 missing in a row.
        missing_times: 100,
        missing: Side::Below,
        missing_in_a_row: at_most(30),
        // 2: a part's S below 5,760,000.
        part_distance: [at_least(5_760_000); 3],
        parts_of_2: parts(),
        // 3: a part's share of S outside, in percent, urban 29 to 44, rural and motorway 23 to 43.
        share: [range(29, 44), range(23, 43), range(23, 43)],
        parts_of_3: parts(),
        // 4: urban mean outside 1,500 to 4,000.
        mean: range(1_500, 4_000),
        part_of_4: URBAN,
        // 5: urban seconds below 100 not 6 to 30 percent of urban seconds.
        stands: below(100),
        standing: range(6, 30),
        // 6: fewer than 300 seconds above 10,000.
        fast: above(10_000),
        fast_seconds: at_least(300),
        // 7: a speed above 16,000, or seconds above 14,500 over 3 percent of motorway seconds.
        too_fast: above(16_000),
        very_fast: above(14_500),
        fast_share: range(0, 3),
        // 8: first and last recorded altitude differ by over 10,000.
        altitude_difference: at_most(10_000),
        // 9: a corrected altitude above 130,000.
        highest: at_most(130_000),
        // 10: 300 times climb not below total S.
        climb_times: 300,
        climb: Side::Below,
        // 11: a bin with M below 100.
        products: at_least(100),
        parts_of_11: parts(),
        parts_of_12: parts(),
        parts_of_13: parts(),
        // 14: a class without windows.
        class_windows: at_least(1),
        parts_of_14: parts(),
        // 15: a class with windows, under half inside.
        half_times: 2,
        half: Side::AtLeast,
        parts_of_15: parts(),
        bits: [0, 1, 2, 3, 4, 5, 6, 7, 8, 9, 10, 11, 12, 13, 14, 15],
    }
}
