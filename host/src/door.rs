//! The safe side of the proved library's doors. The areas are sized here, so that a caller cannot
//! lend short or overlapping ones; an answer owns what was written.

use crate::answerer::{Answer, Areas};
use crate::flow::{MAX_ARRAYS, MAX_NAMES, MAX_STATEMENTS, Refusal, WORK_WORDS};
pub use crate::interference::Interference;

unsafe extern "C" {
    fn yarnuskel_check(file: *const u8, file_length: usize, place: *mut u64) -> u64;
    fn yarnuskel_states(
        file: *const u8,
        file_length: usize,
        masks: *mut u8,
        masks_length: usize,
        live_in: *mut u64,
        live_in_length: usize,
        live_out: *mut u64,
        live_out_length: usize,
        work: *mut u64,
        work_length: usize,
        place: *mut u64,
        visits: *mut u64,
    ) -> u64;
    fn yarnuskel_certain(
        file: *const u8,
        file_length: usize,
        work: *mut u64,
        work_length: usize,
        place: *mut u64,
        certain: *mut u64,
    ) -> u64;
    fn yarnuskel_interference(
        file: *const u8,
        file_length: usize,
        rows: *mut u64,
        rows_length: usize,
        work: *mut u64,
        work_length: usize,
        place: *mut u64,
        most: *mut u64,
    ) -> u64;
}

/// Whether a flow file is fit, or its refusal.
pub fn check(file: &[u8]) -> Result<(), Refusal> {
    let mut place = 0;
    // The pointer goes with the length of its own slice.
    let number = unsafe { yarnuskel_check(file.as_ptr(), file.len(), &mut place) };
    if number == 0 { Ok(()) } else { Err(Refusal { number, place }) }
}

/// What the library says of an accepted flow.
#[derive(Clone, Debug, PartialEq, Eq)]
pub struct FlowStates {
    arrays: usize,
    masks: Vec<u8>,
    /// Names live when each statement starts, bit i for name i.
    pub live_in: Vec<u64>,
    pub live_out: Vec<u64>,
    pub visits: u64,
}

impl FlowStates {
    pub fn statements(&self) -> usize {
        self.live_in.len()
    }

    /// What the array may be when the statement starts: a union of NONE 1, AUTO 2, DIMMED 4.
    pub fn mask(&self, statement: usize, array: usize) -> u8 {
        self.masks_of(statement)[array]
    }

    /// One mask an array.
    pub fn masks_of(&self, statement: usize) -> &[u8] {
        &self.masks[statement * self.arrays..(statement + 1) * self.arrays]
    }
}

/// How many statements, arrays and names the header says, where the library will accept as many.
fn header(file: &[u8]) -> (usize, usize, usize) {
    match *file {
        [_, _, low, high, arrays, names, ..] => {
            let n = u16::from_le_bytes([low, high]).min(MAX_STATEMENTS);
            (n.into(), arrays.min(MAX_ARRAYS).into(), names.min(MAX_NAMES).into())
        }
        _ => (0, 0, 0),
    }
}

/// The states of a flow file, or its refusal.
pub fn states(file: &[u8]) -> Result<FlowStates, Refusal> {
    let (n, arrays, _) = header(file);
    let mut areas = Areas {
        masks: vec![0; n * arrays],
        live_in: vec![0; n],
        live_out: vec![0; n],
        work: vec![0; WORK_WORDS * n],
    };
    let visits = states_in(file, &mut areas).result()?;
    let Areas { masks, live_in, live_out, .. } = areas;
    Ok(FlowStates { arrays, masks, live_in, live_out, visits })
}

/// `yarnuskel_states` of this build or of another.
pub type StatesDoor = unsafe extern "C" fn(
    *const u8,
    usize,
    *mut u8,
    usize,
    *mut u64,
    usize,
    *mut u64,
    usize,
    *mut u64,
    usize,
    *mut u64,
    *mut u64,
) -> u64;

/// The call itself, over areas of any length.
pub fn states_in(file: &[u8], areas: &mut Areas) -> Answer {
    states_by(yarnuskel_states, file, areas)
}

pub(crate) fn states_by(door: StatesDoor, file: &[u8], areas: &mut Areas) -> Answer {
    let (mut place, mut found) = (0, 0);
    // The areas are distinct vectors, and each pointer goes with its own length.
    let number = unsafe {
        door(
            file.as_ptr(),
            file.len(),
            areas.masks.as_mut_ptr(),
            areas.masks.len(),
            areas.live_in.as_mut_ptr(),
            areas.live_in.len(),
            areas.live_out.as_mut_ptr(),
            areas.live_out.len(),
            areas.work.as_mut_ptr(),
            areas.work.len(),
            &mut place,
            &mut found,
        )
    };
    Answer { number, place, found }
}

/// The names of a flow file that are certainly written before they are read, bit i for name i, or the
/// refusal of the file.
pub fn certain(file: &[u8]) -> Result<u64, Refusal> {
    let (n, ..) = header(file);
    certain_in(file, &mut vec![0; WORK_WORDS * n]).result()
}

/// `yarnuskel_certain` of this build or of another.
pub type CertainDoor = unsafe extern "C" fn(*const u8, usize, *mut u64, usize, *mut u64, *mut u64) -> u64;

/// The call itself, over a work area of any length.
pub fn certain_in(file: &[u8], work: &mut [u64]) -> Answer {
    certain_by(yarnuskel_certain, file, work)
}

pub(crate) fn certain_by(door: CertainDoor, file: &[u8], work: &mut [u64]) -> Answer {
    // The call writes both in any case, and one that did not would show.
    let (mut place, mut found) = (u64::MAX, u64::MAX);
    // The slices are distinct, and each pointer goes with its own length.
    let number =
        unsafe { door(file.as_ptr(), file.len(), work.as_mut_ptr(), work.len(), &mut place, &mut found) };
    Answer { number, place, found }
}

/// The names of a flow file that interfere, and how many are live at once, or the refusal of the file.
pub fn interference(file: &[u8]) -> Result<Interference, Refusal> {
    let (n, _, names) = header(file);
    let mut rows = vec![0; names];
    let most = interference_in(file, &mut rows, &mut vec![0; WORK_WORDS * n]).result()?;
    Ok(Interference { rows, most })
}

/// `yarnuskel_interference` of this build or of another.
pub type InterferenceDoor =
    unsafe extern "C" fn(*const u8, usize, *mut u64, usize, *mut u64, usize, *mut u64, *mut u64) -> u64;

/// The call itself, over areas of any length.
pub fn interference_in(file: &[u8], rows: &mut [u64], work: &mut [u64]) -> Answer {
    interference_by(yarnuskel_interference, file, rows, work)
}

pub(crate) fn interference_by(
    door: InterferenceDoor,
    file: &[u8],
    rows: &mut [u64],
    work: &mut [u64],
) -> Answer {
    let (mut place, mut found) = (u64::MAX, u64::MAX);
    // The slices are distinct, and each pointer goes with its own length.
    let number = unsafe {
        door(
            file.as_ptr(),
            file.len(),
            rows.as_mut_ptr(),
            rows.len(),
            work.as_mut_ptr(),
            work.len(),
            &mut place,
            &mut found,
        )
    };
    Answer { number, place, found }
}
