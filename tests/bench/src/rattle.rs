//! The proved functions, as include/permits.h declares them.

use permit_monitor::Record;

mod archives {
    use permit_monitor::Record;

    /// A request is passed by value, so it is a struct as in C.
    #[repr(C)]
    pub struct Request {
        pub bytes: [u8; 5],
    }

    /// A part of the caller's bytes.
    #[repr(C)]
    pub struct Place {
        pub begin: usize,
        pub length: usize,
    }

    #[link(name = "panel", kind = "static")]
    extern "C" {
        pub fn permits_batch(
            plant: *const u8,
            plant_length: usize,
            requests: *const u8,
            requests_length: usize,
            out: *mut u8,
            out_length: usize,
        ) -> u8;
        pub fn permits_section(file: *const u8, length: usize, kind: usize) -> Place;
    }

    #[link(name = "console", kind = "static")]
    extern "C" {
        pub fn permits_open(record: *mut Record, file: *const u8, length: usize) -> u8;
        pub fn permits_call(record: *mut Record, request: Request) -> u8;
        pub fn permits_queue(
            record: *mut Record,
            requests: *const [u8; 5],
            count: usize,
            out: *mut u8,
            out_length: usize,
        ) -> u8;
    }
}

pub fn batch(plant: &[u8], requests: &[u8], out: &mut [u8]) -> u8 {
    unsafe {
        archives::permits_batch(
            plant.as_ptr(),
            plant.len(),
            requests.as_ptr(),
            requests.len(),
            out.as_mut_ptr(),
            out.len(),
        )
    }
}

/// Where the section begins, and how many bytes it has.
pub fn section(file: &[u8], kind: usize) -> (usize, usize) {
    let place = unsafe { archives::permits_section(file.as_ptr(), file.len(), kind) };
    (place.begin, place.length)
}

pub fn open(record: &mut Record, file: &[u8]) -> u8 {
    unsafe { archives::permits_open(record, file.as_ptr(), file.len()) }
}

pub fn call(record: &mut Record, request: [u8; 5]) -> u8 {
    unsafe { archives::permits_call(record, archives::Request { bytes: request }) }
}

pub fn queue(record: &mut Record, requests: &[[u8; 5]], out: &mut [u8]) -> u8 {
    unsafe {
        archives::permits_queue(
            record,
            requests.as_ptr(),
            requests.len(),
            out.as_mut_ptr(),
            out.len(),
        )
    }
}
