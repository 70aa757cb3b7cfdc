//! The product, through its C interface (`include/punqelis.h`).

#[cfg(feature = "rewrite")]
use crate::preview::Size;
use crate::refusal::{Answer, Refusal};
#[cfg(feature = "rewrite")]
use crate::Services;

/// `struct punqelis_size`. Beside a refusal the other numbers are 0.
#[cfg(feature = "rewrite")]
#[repr(C)]
struct AnsweredSize {
    answer: u32,
    clocked_roms: u32,
    registers: u32,
    largest_lead: u32,
    sources: u32,
}

extern "C" {
    fn punqelis_check(file: *const u8, file_len: usize) -> u32;
    #[cfg(feature = "run")]
    fn punqelis_reset(file: *const u8, file_len: usize, state: *mut u8, state_len: usize) -> u32;
    #[cfg(feature = "run")]
    fn punqelis_run(
        file: *const u8,
        file_len: usize,
        state: *mut u8,
        state_len: usize,
        inputs: *const u8,
        inputs_len: usize,
        outputs: *mut u8,
        outputs_len: usize,
    ) -> u32;
    #[cfg(feature = "run")]
    fn punqelis_run_list(
        file: *const u8,
        file_len: usize,
        state: *mut u8,
        state_len: usize,
        inputs: *const u8,
        inputs_len: usize,
        outputs: *mut u8,
        outputs_len: usize,
        clocks: usize,
    ) -> u32;
    #[cfg(feature = "rewrite")]
    fn punqelis_rewrite(file: *const u8, file_len: usize, out: *mut u8, out_len: usize) -> u32;
    #[cfg(feature = "rewrite")]
    fn punqelis_rewrite_late(file: *const u8, file_len: usize, out: *mut u8, out_len: usize)
        -> u32;
    #[cfg(feature = "rewrite")]
    fn punqelis_preview(
        file: *const u8,
        file_len: usize,
        by_source: *mut u8,
        by_source_len: usize,
    ) -> AnsweredSize;
}

#[cfg(feature = "rewrite")]
pub const SERVICES: Services = Services {
    check,
    reset,
    run,
    run_list,
    rewrite,
    rewrite_late,
    preview,
};

// Safety, for all calls below: each pointer and length belong to one slice that lives through
// the call, and Rust's borrows see to it that a slice that is written overlaps with no other.

pub fn check(file: &[u8]) -> Answer {
    answer(unsafe { punqelis_check(file.as_ptr(), file.len()) })
}

#[cfg(feature = "run")]
pub fn reset(file: &[u8], state: &mut [u8]) -> Answer {
    answer(unsafe { punqelis_reset(file.as_ptr(), file.len(), state.as_mut_ptr(), state.len()) })
}

#[cfg(feature = "run")]
pub fn run(file: &[u8], state: &mut [u8], inputs: &[u8], outputs: &mut [u8]) -> Answer {
    answer(unsafe {
        punqelis_run(
            file.as_ptr(),
            file.len(),
            state.as_mut_ptr(),
            state.len(),
            inputs.as_ptr(),
            inputs.len(),
            outputs.as_mut_ptr(),
            outputs.len(),
        )
    })
}

/// An accepted list is answered by 0: its outputs may be longer than a length below 65,536 tells.
#[cfg(feature = "run")]
pub fn run_list(
    file: &[u8],
    state: &mut [u8],
    inputs: &[u8],
    outputs: &mut [u8],
    clocks: usize,
) -> Answer {
    let number = answer(unsafe {
        punqelis_run_list(
            file.as_ptr(),
            file.len(),
            state.as_mut_ptr(),
            state.len(),
            inputs.as_ptr(),
            inputs.len(),
            outputs.as_mut_ptr(),
            outputs.len(),
            clocks,
        )
    })?;
    assert_eq!(number, 0, "no answer to a list of runs");
    Ok(outputs.len())
}

#[cfg(feature = "rewrite")]
pub fn rewrite(file: &[u8], out: &mut [u8]) -> Answer {
    answer(unsafe { punqelis_rewrite(file.as_ptr(), file.len(), out.as_mut_ptr(), out.len()) })
}

#[cfg(feature = "rewrite")]
pub fn rewrite_late(file: &[u8], out: &mut [u8]) -> Answer {
    answer(unsafe { punqelis_rewrite_late(file.as_ptr(), file.len(), out.as_mut_ptr(), out.len()) })
}

#[cfg(feature = "rewrite")]
pub fn preview(file: &[u8], by_source: &mut [u8]) -> Result<Size, Refusal> {
    let (list, list_len) = (by_source.as_mut_ptr(), by_source.len());
    let size = unsafe { punqelis_preview(file.as_ptr(), file.len(), list, list_len) };
    let numbers = [
        size.clocked_roms,
        size.registers,
        size.largest_lead,
        size.sources,
    ];
    let [clocked_roms, registers, largest_lead, sources] = numbers.map(|number| number as usize);
    match answer(size.answer) {
        Ok(length) => Ok(Size {
            clocked_roms,
            registers,
            length,
            largest_lead,
            sources,
        }),
        Err(refusal) => {
            assert_eq!(numbers, [0; 4], "beside {refusal}");
            Err(refusal)
        }
    }
}

/// Takes the one number apart: a length, or a refusal's number times 65,536 plus its place.
fn answer(number: u32) -> Answer {
    match (number >> 16) as u16 {
        0 => Ok(number as usize),
        refusal => Err(Refusal {
            number: refusal,
            place: number as u16,
        }),
    }
}
