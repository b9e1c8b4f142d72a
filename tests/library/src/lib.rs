//! The static library behind safe functions, as include/pierbracken.h declares it.
//!
//! Each function of the library takes every input. A lane crosses as its first place and its
//! number of places, and the call touches no place outside it and keeps nothing.

pub mod probe;
mod raw;

pub use raw::{
    bytes_of_plan, AccelerationAnswer, Bin, Class, Fed, ItemAnswer, MassAnswer, PercentileAnswer,
    Plan, ReadAnswer, Reader, ReaderBytes, Setting, SweepAnswer, SweepState, Tally, TripAnswer,
    WriteAnswer,
};

/// The release of the meaning of "valid" by which this build answers.
pub fn meaning() -> u32 {
    // Safety: a plain number comes out.
    unsafe { raw::pb_meaning() }
}

/// The CO2 mass of a second, in mg, from a reading of a kind 0 to 3 and its value.
pub fn mass_co2(kind: u8, value: f64, setting: Setting) -> MassAnswer {
    // Safety: plain numbers go in and come out.
    unsafe { raw::pb_mass_co2(kind, value, setting) }
}

/// The NOx mass of a second, in µg, from a reading of a kind 0 to 3 and its value.
pub fn mass_nox(kind: u8, value: f64, setting: Setting) -> MassAnswer {
    // Safety: plain numbers go in and come out.
    unsafe { raw::pb_mass_nox(kind, value, setting) }
}

/// One item from the front of some bytes.
pub fn item(bytes: &[u8]) -> ItemAnswer {
    // Safety: the pointer and the count are those of one slice.
    unsafe { raw::pb_item(bytes.as_ptr(), bytes.len()) }
}

/// The five lanes of a trip, lent to be written; they may differ in length.
pub struct Lanes<'a> {
    pub states: &'a mut [u8],
    pub speeds: &'a mut [u16],
    pub altitudes: &'a mut [i32],
    pub co2: &'a mut [u32],
    pub nox: &'a mut [u32],
}

/// A whole stream into five lanes.
pub fn read(stream: &[u8], lanes: Lanes) -> ReadAnswer {
    // Safety: each pointer and the count after it are those of one slice, and no two overlap.
    unsafe {
        raw::pb_read(
            stream.as_ptr(),
            stream.len(),
            lanes.states.as_mut_ptr(),
            lanes.states.len(),
            lanes.speeds.as_mut_ptr(),
            lanes.speeds.len(),
            lanes.altitudes.as_mut_ptr(),
            lanes.altitudes.len(),
            lanes.co2.as_mut_ptr(),
            lanes.co2.len(),
            lanes.nox.as_mut_ptr(),
            lanes.nox.len(),
        )
    }
}

/// The reader before the first block.
pub fn start() -> Reader {
    // Safety: plain numbers come out.
    unsafe { raw::pb_start() }
}

/// Feeds a block of a stream, cut anywhere, to a reader, which may be any bytes.
pub fn feed(reader: impl Into<ReaderBytes>, block: &[u8], lanes: Lanes) -> Fed {
    // Safety: a reader's members are numbers, so that its bytes may be any; each pointer and the
    // count after it are those of one slice, and no two overlap.
    unsafe {
        raw::pb_feed(
            reader.into(),
            block.as_ptr(),
            block.len(),
            lanes.states.as_mut_ptr(),
            lanes.states.len(),
            lanes.speeds.as_mut_ptr(),
            lanes.speeds.len(),
            lanes.altitudes.as_mut_ptr(),
            lanes.altitudes.len(),
            lanes.co2.as_mut_ptr(),
            lanes.co2.len(),
            lanes.nox.as_mut_ptr(),
            lanes.nox.len(),
        )
    }
}

/// The answer at the end of a stream that came in blocks, of a reader, which may be any bytes.
pub fn end(reader: impl Into<ReaderBytes>) -> ReadAnswer {
    // Safety: a reader's members are numbers, so that its bytes may be any.
    unsafe { raw::pb_end(reader.into()) }
}

/// A budget of moves of the sweep, from a state.
pub fn sweep(
    reference: u32,
    co2: &[u32],
    ends: &mut [u16],
    state: SweepState,
    budget: u64,
) -> SweepAnswer {
    // Safety: each pointer and the count after it are those of one slice, and the two do not
    // overlap.
    unsafe {
        raw::pb_sweep(
            reference,
            co2.as_ptr(),
            co2.len(),
            ends.as_mut_ptr(),
            ends.len(),
            state,
            budget,
        )
    }
}

/// The five lanes of a trip, to be read.
#[derive(Clone, Copy)]
pub struct Trip<'a> {
    pub states: &'a [u8],
    pub speeds: &'a [u16],
    pub altitudes: &'a [i32],
    pub co2: &'a [u32],
    pub nox: &'a [u32],
}

/// A plan and the lanes of a trip into a stream.
pub fn write(plan: Plan, trip: Trip, stream: &mut [u8]) -> WriteAnswer {
    // Safety: each pointer and the count after it are those of one slice, and the stream overlaps
    // no lane.
    unsafe {
        raw::pb_write(
            plan,
            trip.states.as_ptr(),
            trip.states.len(),
            trip.speeds.as_ptr(),
            trip.speeds.len(),
            trip.altitudes.as_ptr(),
            trip.altitudes.len(),
            trip.co2.as_ptr(),
            trip.co2.len(),
            trip.nox.as_ptr(),
            trip.nox.len(),
            stream.as_mut_ptr(),
            stream.len(),
        )
    }
}

/// D of one second, by index from 0.
pub fn acceleration(trip: Trip, index: usize) -> AccelerationAnswer {
    // Safety: each pointer and the count after it are those of one slice.
    unsafe {
        raw::pb_acceleration(
            trip.states.as_ptr(),
            trip.states.len(),
            trip.speeds.as_ptr(),
            trip.speeds.len(),
            trip.altitudes.as_ptr(),
            trip.altitudes.len(),
            trip.co2.as_ptr(),
            trip.co2.len(),
            trip.nox.as_ptr(),
            trip.nox.len(),
            index,
        )
    }
}

/// Q of products in any order, which are ranked into the lane.
pub fn percentile(products: &[u32], ranks: &mut [u32]) -> PercentileAnswer {
    // Safety: each pointer and the count after it are those of one slice, and the two do not
    // overlap.
    unsafe {
        raw::pb_percentile(
            products.as_ptr(),
            products.len(),
            ranks.as_mut_ptr(),
            ranks.len(),
        )
    }
}

/// The four lanes lent to an evaluation; each needs a place per second.
pub struct Lent<'a> {
    pub kept_speeds: &'a mut [u16],
    pub kept_co2: &'a mut [u32],
    pub ends: &'a mut [u16],
    pub ranks: &'a mut [u32],
}

/// A whole trip.
pub fn evaluate(plan: Plan, trip: Trip, lent: Lent) -> TripAnswer {
    // Safety: each pointer and the count after it are those of one slice, and none of the lent
    // lanes overlaps another lane.
    unsafe {
        raw::pb_evaluate(
            plan,
            trip.states.as_ptr(),
            trip.states.len(),
            trip.speeds.as_ptr(),
            trip.speeds.len(),
            trip.altitudes.as_ptr(),
            trip.altitudes.len(),
            trip.co2.as_ptr(),
            trip.co2.len(),
            trip.nox.as_ptr(),
            trip.nox.len(),
            lent.kept_speeds.as_mut_ptr(),
            lent.kept_speeds.len(),
            lent.kept_co2.as_mut_ptr(),
            lent.kept_co2.len(),
            lent.ends.as_mut_ptr(),
            lent.ends.len(),
            lent.ranks.as_mut_ptr(),
            lent.ranks.len(),
        )
    }
}

/// Whether a verdict has any of the reasons of a mask.
pub fn has_reason(verdict: u16, mask: u16) -> bool {
    // Safety: plain numbers go in, and a bool comes out.
    unsafe { raw::pb_has_reason(verdict, mask) }
}
