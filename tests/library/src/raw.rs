//! The declarations of include/pierbracken.h.

use std::mem::offset_of;

/// `pb_setting`
#[repr(C)]
#[derive(Clone, Copy, Debug, PartialEq)]
pub struct Setting {
    pub u: f64,
    pub factor: f64,
    pub flow: f64,
}

/// `pb_mass_answer`
#[repr(C)]
#[derive(Clone, Copy, Debug, PartialEq, Eq)]
pub struct MassAnswer {
    pub refusal: u8,
    pub mass: u32,
    pub place: usize,
}

/// `pb_plan`
#[repr(C)]
#[derive(Clone, Copy, Debug, Default, PartialEq, Eq)]
pub struct Plan {
    pub reference: u32,
    pub e1: u32,
    pub e2: u32,
    pub e3: u32,
    pub lower: u8,
    pub urban: u8,
    pub rural: u8,
    pub motorway: u8,
}

/// `pb_item_answer`
#[repr(C)]
#[derive(Clone, Copy, Debug, Default, PartialEq, Eq)]
pub struct ItemAnswer {
    pub refusal: u8,
    pub kind: u8,
    pub speed: u16,
    pub altitude: i32,
    pub co2: u32,
    pub nox: u32,
    pub plan: Plan,
    pub length: usize,
    pub place: usize,
}

/// `pb_read_answer`
#[repr(C)]
#[derive(Clone, Copy, Debug, Default, PartialEq, Eq)]
pub struct ReadAnswer {
    pub refusal: u8,
    pub place: usize,
    pub plan: Plan,
    pub seconds: usize,
}

/// `pb_write_answer`
#[repr(C)]
#[derive(Clone, Copy, Debug, Default, PartialEq, Eq)]
pub struct WriteAnswer {
    pub refusal: u8,
    pub place: usize,
    pub bytes: usize,
}

/// `pb_reader`
#[repr(C)]
#[derive(Clone, Copy, Debug, Default, PartialEq, Eq)]
pub struct Reader {
    pub refusal: u8,
    pub plan: Plan,
    pub seconds: usize,
    pub at: usize,
    pub count: usize,
    pub held: [u8; 21],
}

/// `pb_reader` as its bytes, what lies between the members too: from C any value may come. A struct
/// that is too large for registers crosses as it lies in memory, whatever its members are.
#[repr(C, align(8))]
#[derive(Clone, Copy, Debug, PartialEq, Eq)]
pub struct ReaderBytes(pub [u8; 72]);

const _: () = assert!(size_of::<ReaderBytes>() == size_of::<Reader>());
const _: () = assert!(align_of::<ReaderBytes>() == align_of::<Reader>());

/// Zeros lie between the members.
impl From<Reader> for ReaderBytes {
    fn from(reader: Reader) -> ReaderBytes {
        let mut bytes = [0; size_of::<Reader>()];
        let mut put = |at: usize, part: &[u8]| bytes[at..at + part.len()].copy_from_slice(part);
        put(offset_of!(Reader, refusal), &[reader.refusal]);
        put(offset_of!(Reader, plan), &bytes_of_plan(reader.plan));
        put(offset_of!(Reader, seconds), &reader.seconds.to_ne_bytes());
        put(offset_of!(Reader, at), &reader.at.to_ne_bytes());
        put(offset_of!(Reader, count), &reader.count.to_ne_bytes());
        put(offset_of!(Reader, held), &reader.held);
        ReaderBytes(bytes)
    }
}

/// The bytes of a plan, as they lie in memory.
pub fn bytes_of_plan(plan: Plan) -> [u8; size_of::<Plan>()] {
    // Safety: nothing lies between the members of a plan, so that every byte is one of a number.
    unsafe { std::mem::transmute(plan) }
}

/// `pb_fed`
#[repr(C)]
#[derive(Clone, Copy, Debug, Default, PartialEq, Eq)]
pub struct Fed {
    pub refusal: u8,
    pub place: usize,
    pub reader: Reader,
}

/// `pb_sweep_state`
#[repr(C)]
#[derive(Clone, Copy, Debug, Default, PartialEq, Eq)]
pub struct SweepState {
    pub taken: u64,
    pub dropped: u64,
    pub mass: u64,
    pub moves: u64,
}

/// `pb_sweep_answer`
#[repr(C)]
#[derive(Clone, Copy, Debug, Default, PartialEq, Eq)]
pub struct SweepAnswer {
    pub refusal: u8,
    pub place: usize,
    pub state: SweepState,
    pub moves: u64,
    pub over: bool,
}

/// `pb_acceleration_answer`
#[repr(C)]
#[derive(Clone, Copy, Debug, Default, PartialEq, Eq)]
pub struct AccelerationAnswer {
    pub refusal: u8,
    pub has_d: bool,
    pub rise: u16,
    pub fall: u16,
    pub place: usize,
}

/// `pb_percentile_answer`
#[repr(C)]
#[derive(Clone, Copy, Debug, Default, PartialEq, Eq)]
pub struct PercentileAnswer {
    pub refusal: u8,
    pub q: u64,
    pub place: usize,
}

/// `pb_bin`
#[repr(C)]
#[derive(Clone, Copy, Debug, Default, PartialEq, Eq)]
pub struct Bin {
    pub seconds: u32,
    pub distance: u32,
    pub co2: u64,
    pub nox: u64,
    pub m: u32,
    pub t: u64,
    pub q: u64,
}

/// `pb_tally`
#[repr(C)]
#[derive(Clone, Copy, Debug, Default, PartialEq, Eq)]
pub struct Tally {
    pub seconds: u32,
    pub distance: u32,
    pub co2: u64,
    pub nox: u64,
}

/// `pb_class`
#[repr(C)]
#[derive(Clone, Copy, Debug, Default, PartialEq, Eq)]
pub struct Class {
    pub windows: u32,
    pub inside: u32,
}

/// `pb_trip_answer`
#[repr(C)]
#[derive(Clone, Copy, Debug, Default, PartialEq, Eq)]
pub struct TripAnswer {
    pub refusal: u8,
    pub place: usize,
    pub seconds: u32,
    pub missing: u32,
    pub kept: u32,
    pub windows: u32,
    pub moves: u32,
    pub bins: [Bin; 3],
    pub total: Tally,
    pub climb: u64,
    pub classes: [Class; 3],
    pub verdict: u16,
}

extern "C" {
    pub fn pb_meaning() -> u32;
    pub fn pb_mass_co2(kind: u8, value: f64, setting: Setting) -> MassAnswer;
    pub fn pb_mass_nox(kind: u8, value: f64, setting: Setting) -> MassAnswer;
    pub fn pb_item(bytes: *const u8, count: usize) -> ItemAnswer;
    pub fn pb_read(
        stream: *const u8,
        stream_bytes: usize,
        states: *mut u8,
        states_places: usize,
        speeds: *mut u16,
        speeds_places: usize,
        altitudes: *mut i32,
        altitudes_places: usize,
        co2: *mut u32,
        co2_places: usize,
        nox: *mut u32,
        nox_places: usize,
    ) -> ReadAnswer;
    pub fn pb_start() -> Reader;
    pub fn pb_feed(
        reader: ReaderBytes,
        block: *const u8,
        block_bytes: usize,
        states: *mut u8,
        states_places: usize,
        speeds: *mut u16,
        speeds_places: usize,
        altitudes: *mut i32,
        altitudes_places: usize,
        co2: *mut u32,
        co2_places: usize,
        nox: *mut u32,
        nox_places: usize,
    ) -> Fed;
    pub fn pb_end(reader: ReaderBytes) -> ReadAnswer;
    pub fn pb_write(
        plan: Plan,
        states: *const u8,
        states_count: usize,
        speeds: *const u16,
        speeds_count: usize,
        altitudes: *const i32,
        altitudes_count: usize,
        co2: *const u32,
        co2_count: usize,
        nox: *const u32,
        nox_count: usize,
        stream: *mut u8,
        stream_places: usize,
    ) -> WriteAnswer;
    pub fn pb_sweep(
        reference: u32,
        co2: *const u32,
        co2_count: usize,
        ends: *mut u16,
        ends_places: usize,
        state: SweepState,
        budget: u64,
    ) -> SweepAnswer;
    pub fn pb_acceleration(
        states: *const u8,
        states_count: usize,
        speeds: *const u16,
        speeds_count: usize,
        altitudes: *const i32,
        altitudes_count: usize,
        co2: *const u32,
        co2_count: usize,
        nox: *const u32,
        nox_count: usize,
        index: usize,
    ) -> AccelerationAnswer;
    pub fn pb_percentile(
        products: *const u32,
        products_count: usize,
        ranks: *mut u32,
        ranks_places: usize,
    ) -> PercentileAnswer;
    pub fn pb_evaluate(
        plan: Plan,
        states: *const u8,
        states_count: usize,
        speeds: *const u16,
        speeds_count: usize,
        altitudes: *const i32,
        altitudes_count: usize,
        co2: *const u32,
        co2_count: usize,
        nox: *const u32,
        nox_count: usize,
        kept_speeds: *mut u16,
        kept_speeds_places: usize,
        kept_co2: *mut u32,
        kept_co2_places: usize,
        ends: *mut u16,
        ends_places: usize,
        ranks: *mut u32,
        ranks_places: usize,
    ) -> TripAnswer;
    pub fn pb_has_reason(verdict: u16, mask: u16) -> bool;
}
