//! The five lanes of a trip, the four lent ones and the buffer of a stream, for both sides.

use oracle::second::{Second, TripLanes};
use oracle::stream::StreamLanes;
use oracle::trip::LentLanes;

/// Each lane is of its own length.
#[derive(Clone, Debug, Default, PartialEq, Eq)]
pub struct Lanes {
    pub states: Vec<u8>,
    pub speeds: Vec<u16>,
    pub altitudes: Vec<i32>,
    pub co2: Vec<u32>,
    pub nox: Vec<u32>,
}

impl Lanes {
    pub fn of(seconds: &[Second]) -> Lanes {
        Lanes {
            states: seconds.iter().map(|s| s.state).collect(),
            speeds: seconds.iter().map(|s| s.speed).collect(),
            altitudes: seconds.iter().map(|s| s.altitude).collect(),
            co2: seconds.iter().map(|s| s.co2).collect(),
            nox: seconds.iter().map(|s| s.nox).collect(),
        }
    }

    /// The seconds of lanes of one length.
    pub fn seconds(&self) -> Vec<Second> {
        self.trip_on_paper().all().collect()
    }

    /// Lanes of these lengths, filled with values that no stream leaves there.
    pub fn guarded(lengths: [usize; 5]) -> Lanes {
        Lanes {
            states: vec![0xa5; lengths[0]],
            speeds: vec![0xa5a5; lengths[1]],
            altitudes: vec![-0x5a5a_5a5b; lengths[2]],
            co2: vec![0xa5a5_a5a5; lengths[3]],
            nox: vec![0xa5a5_a5a5; lengths[4]],
        }
    }

    /// Lent to the library to be written.
    pub fn lent(&mut self) -> library::Lanes<'_> {
        library::Lanes {
            states: &mut self.states,
            speeds: &mut self.speeds,
            altitudes: &mut self.altitudes,
            co2: &mut self.co2,
            nox: &mut self.nox,
        }
    }

    /// Handed to the library to be read.
    pub fn trip(&self) -> library::Trip<'_> {
        library::Trip {
            states: &self.states,
            speeds: &self.speeds,
            altitudes: &self.altitudes,
            co2: &self.co2,
            nox: &self.nox,
        }
    }

    /// The first seconds handed to the library: a tail is trimmed by handing over less.
    pub fn front(&self, seconds: usize) -> library::Trip<'_> {
        library::Trip {
            states: &self.states[..seconds],
            speeds: &self.speeds[..seconds],
            altitudes: &self.altitudes[..seconds],
            co2: &self.co2[..seconds],
            nox: &self.nox[..seconds],
        }
    }

    /// Lent to the independent program.
    pub fn lent_on_paper(&mut self) -> StreamLanes<'_> {
        StreamLanes {
            states: &mut self.states,
            speeds: &mut self.speeds,
            altitudes: &mut self.altitudes,
            co2: &mut self.co2,
            nox: &mut self.nox,
        }
    }

    /// Handed to the independent program.
    pub fn trip_on_paper(&self) -> TripLanes<'_> {
        TripLanes {
            states: &self.states,
            speeds: &self.speeds,
            altitudes: &self.altitudes,
            co2: &self.co2,
            nox: &self.nox,
        }
    }
}

/// The lanes lent to an evaluation, filled with values that none writes.
#[derive(Clone, Debug, PartialEq, Eq)]
pub struct Lent {
    pub kept_speeds: Vec<u16>,
    pub kept_co2: Vec<u32>,
    pub ends: Vec<u16>,
    pub ranks: Vec<u32>,
}

impl Lent {
    pub fn guarded(places: [usize; 4]) -> Lent {
        Lent {
            kept_speeds: vec![0xa5a5; places[0]],
            kept_co2: vec![0xa5a5_a5a5; places[1]],
            ends: vec![0xa5a5; places[2]],
            ranks: vec![0xa5a5_a5a5; places[3]],
        }
    }

    /// Lent to the library.
    pub fn lent(&mut self) -> library::Lent<'_> {
        library::Lent {
            kept_speeds: &mut self.kept_speeds,
            kept_co2: &mut self.kept_co2,
            ends: &mut self.ends,
            ranks: &mut self.ranks,
        }
    }

    /// Lent to the independent program.
    pub fn lent_on_paper(&mut self) -> LentLanes<'_> {
        LentLanes {
            kept_speeds: &mut self.kept_speeds,
            kept_co2: &mut self.kept_co2,
            ends: &mut self.ends,
            ranks: &mut self.ranks,
        }
    }
}

/// What the caller left in the places of a buffer and beside them.
const GUARD: u8 = 0xa5;

/// How many guarded bytes lie on either side of a buffer: more than an item has.
const BESIDE: usize = 32;

/// A buffer lent to the writer, between bytes that no call may touch.
#[derive(Clone, Debug, PartialEq, Eq)]
pub struct Buffer(Vec<u8>);

impl Buffer {
    pub fn guarded(places: usize) -> Buffer {
        Buffer(vec![GUARD; BESIDE + places + BESIDE])
    }

    /// A buffer of so many places that holds a stream, and behind it what the caller left.
    pub fn holding(stream: &[u8], places: usize) -> Buffer {
        let mut buffer = Buffer::guarded(places);
        buffer.lent()[..stream.len()].copy_from_slice(stream);
        buffer
    }

    /// Lent to either side.
    pub fn lent(&mut self) -> &mut [u8] {
        let end = self.0.len() - BESIDE;
        &mut self.0[BESIDE..end]
    }

    /// The bytes that were written into its front; none where it has not so many places.
    pub fn front(&mut self, bytes: usize) -> &[u8] {
        self.lent().get(..bytes).unwrap_or_default()
    }

    /// What lies in it and beside it.
    pub fn bytes(&self) -> &[u8] {
        &self.0
    }
}

/// A plan as the library takes it.
pub fn plan_of(plan: &oracle::Plan) -> library::Plan {
    library::Plan {
        reference: plan.reference,
        e1: plan.e1,
        e2: plan.e2,
        e3: plan.e3,
        lower: plan.lower,
        urban: plan.upper[0],
        rural: plan.upper[1],
        motorway: plan.upper[2],
    }
}

/// What the paper answers for a whole stream, plan and seconds, as the library gives it.
pub fn answer_by_paper(
    read: Result<(oracle::Plan, usize), oracle::Refusal>,
) -> library::ReadAnswer {
    let zeros = library::ReadAnswer::default();
    match read {
        Ok((plan, seconds)) => library::ReadAnswer {
            plan: plan_of(&plan),
            seconds,
            ..zeros
        },
        Err(refusal) => library::ReadAnswer {
            refusal: refusal.number,
            place: refusal.place,
            ..zeros
        },
    }
}
