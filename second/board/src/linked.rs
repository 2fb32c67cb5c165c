//! The calls where the processor is x86-64: the library is linked.

use flat::{Input, Kiosk, Made, Page, Part, Reply};

extern "C" {
    fn slip_create(
        powers: *const u16,
        kiosks: usize,
        own: usize,
        height: u32,
        journal: *mut u8,
        area: usize,
    ) -> Made;
    fn slip_open(
        journal: *const u8,
        area: usize,
        used: usize,
        table: *mut u64,
        places: usize,
    ) -> Reply;
    fn slip_again(
        journal: *const u8,
        area: usize,
        used: usize,
        table: *mut u64,
        places: usize,
        said: *mut u8,
        room: usize,
    ) -> Reply;
    fn slip_put(
        kiosk: Kiosk,
        input: Input,
        table: *mut u64,
        places: usize,
        journal: *mut u8,
        area: usize,
    ) -> Reply;
    fn slip_last(kiosk: Kiosk, journal: *const u8, area: usize) -> Part;
    fn slip_list(journal: *const u8, count: usize, text: *mut u8, room: usize) -> Page;
    fn slip_kiosk_number(kiosk: Kiosk, field: usize, index: usize) -> u64;
    fn slip_input_number(input: Input, field: usize) -> u64;
    fn slip_layout(kiosk: Kiosk, first: u8) -> Reply;
}

pub fn create(powers: &[u16], own: usize, height: u32, journal: &mut [u8]) -> Made {
    // SAFETY: both pointers come from slices, with their lengths.
    unsafe {
        slip_create(
            powers.as_ptr(),
            powers.len(),
            own,
            height,
            journal.as_mut_ptr(),
            journal.len(),
        )
    }
}

pub fn open(journal: &[u8], used: usize, table: &mut [u64]) -> Reply {
    // SAFETY: as in `create`.
    unsafe {
        slip_open(
            journal.as_ptr(),
            journal.len(),
            used,
            table.as_mut_ptr(),
            table.len(),
        )
    }
}

pub fn again(journal: &[u8], used: usize, table: &mut [u64], said: &mut [u8]) -> Reply {
    // SAFETY: as in `create`.
    unsafe {
        slip_again(
            journal.as_ptr(),
            journal.len(),
            used,
            table.as_mut_ptr(),
            table.len(),
            said.as_mut_ptr(),
            said.len(),
        )
    }
}

pub fn put(kiosk: &Kiosk, input: &Input, table: &mut [u64], journal: &mut [u8]) -> Reply {
    // SAFETY: as in `create`.
    unsafe {
        slip_put(
            *kiosk,
            *input,
            table.as_mut_ptr(),
            table.len(),
            journal.as_mut_ptr(),
            journal.len(),
        )
    }
}

pub fn last(kiosk: &Kiosk, journal: &[u8]) -> Part {
    // SAFETY: as in `create`.
    unsafe { slip_last(*kiosk, journal.as_ptr(), journal.len()) }
}

pub fn list(journal: &[u8], text: &mut [u8]) -> Page {
    // SAFETY: as in `create`.
    unsafe {
        slip_list(
            journal.as_ptr(),
            journal.len(),
            text.as_mut_ptr(),
            text.len(),
        )
    }
}

pub fn kiosk_number(kiosk: &Kiosk, field: usize, index: usize) -> u64 {
    // SAFETY: plain numbers by value.
    unsafe { slip_kiosk_number(*kiosk, field, index) }
}

pub fn input_number(input: &Input, field: usize) -> u64 {
    // SAFETY: plain numbers by value.
    unsafe { slip_input_number(*input, field) }
}

pub fn layout(kiosk: &Kiosk, first: u8) -> Reply {
    // SAFETY: plain numbers by value.
    unsafe { slip_layout(*kiosk, first) }
}
