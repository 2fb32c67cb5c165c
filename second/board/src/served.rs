//! The calls where the processor is not x86-64: the library runs in an emulator, behind served.c, one process for each thread.
//! Structs cross as their bytes: repr(C) lays them out alike on 64-bit little-endian machines, and tests/layout.rs sees it, by a
//! different number in every field.

use flat::{Input, Kiosk, Made, Page, Part, Reply};
use std::cell::RefCell;
use std::io::{Error, ErrorKind, IoSlice, IoSliceMut, Read, Write};
use std::process::{Child, Command, Stdio};
use std::slice::{from_mut, from_ref};

/// As in served.c, and `Request` too.
#[derive(Clone, Copy)]
enum Call {
    Create,
    Open,
    Again,
    Put,
    Last,
    List,
    KioskNumber,
    InputNumber,
    Layout,
}

#[repr(C)]
#[derive(Default)]
struct Request {
    call: u64,
    values: [u64; 2],
    numbers: u64,
    written: u64,
    read: u64,
    kiosk: Kiosk,
    input: Input,
}

/// What is lent with a call. The last is not sent back.
#[derive(Default)]
struct Areas<'a> {
    numbers: &'a mut [u8],
    written: &'a mut [u8],
    read: &'a [u8],
}

/// Numbers and nothing else, so that any bytes are such a thing.
///
/// # Safety
/// Implemented for no other.
unsafe trait Plain: Default {}
unsafe impl Plain for u16 {}
unsafe impl Plain for u64 {}
unsafe impl Plain for Made {}
unsafe impl Plain for Reply {}
unsafe impl Plain for Part {}
unsafe impl Plain for Page {}
unsafe impl Plain for Request {}

fn bytes<T: Plain>(things: &[T]) -> &[u8] {
    // SAFETY: these are their bytes. What stands between fields is sent, and looked at on neither side.
    unsafe { std::slice::from_raw_parts(things.as_ptr().cast(), size_of_val(things)) }
}

fn bytes_mut<T: Plain>(things: &mut [T]) -> &mut [u8] {
    // SAFETY: as in `bytes`; and any bytes may be written there.
    unsafe { std::slice::from_raw_parts_mut(things.as_mut_ptr().cast(), size_of_val(things)) }
}

/// Ends with its input.
struct Served(Child);

thread_local! {
    static SERVED: RefCell<Served> = RefCell::new(Served::start());
}

impl Served {
    fn start() -> Served {
        let runner = std::env::var("CARGO_TARGET_X86_64_UNKNOWN_LINUX_GNU_RUNNER");
        // env starts the runner on the program, or else the program.
        let child = Command::new("env")
            .args(runner.unwrap_or_default().split_whitespace())
            .arg(env!("SLIP_SERVED"))
            .stdin(Stdio::piped())
            .stdout(Stdio::piped())
            .spawn();
        Served(child.expect("env"))
    }

    fn send(&mut self, mut parts: &mut [IoSlice]) -> Result<(), Error> {
        let to = self.0.stdin.as_mut().expect("piped");
        while !parts.is_empty() {
            let sent = to.write_vectored(parts)?;
            IoSlice::advance_slices(&mut parts, sent);
        }
        Ok(())
    }

    fn take(&mut self, mut parts: &mut [IoSliceMut]) -> Result<(), Error> {
        let from = self.0.stdout.as_mut().expect("piped");
        while !parts.is_empty() {
            match from.read_vectored(parts)? {
                0 => return Err(ErrorKind::UnexpectedEof.into()),
                got => IoSliceMut::advance_slices(&mut parts, got),
            }
        }
        Ok(())
    }

    fn call<T: Plain>(&mut self, request: &Request, areas: Areas) -> Result<T, Error> {
        self.send(&mut [
            IoSlice::new(bytes(from_ref(request))),
            IoSlice::new(areas.numbers),
            IoSlice::new(areas.written),
            IoSlice::new(areas.read),
        ])?;
        let mut answer = T::default();
        self.take(&mut [
            IoSliceMut::new(bytes_mut(from_mut(&mut answer))),
            IoSliceMut::new(areas.numbers),
            IoSliceMut::new(areas.written),
        ])?;
        Ok(answer)
    }
}

impl Drop for Served {
    fn drop(&mut self) {
        let _ = self.0.wait();
    }
}

/// `request` has what goes by value.
fn call<T: Plain>(call: Call, request: Request, areas: Areas) -> T {
    let request = Request {
        call: call as u64,
        numbers: areas.numbers.len() as u64,
        written: areas.written.len() as u64,
        read: areas.read.len() as u64,
        ..request
    };
    SERVED.with_borrow_mut(|served| {
        served.call(&request, areas).unwrap_or_else(|error| {
            let ended = served.0.wait().expect("its status");
            panic!("the library's process ended without an answer: {ended} ({error})")
        })
    })
}

pub fn create(powers: &[u16], own: usize, height: u32, journal: &mut [u8]) -> Made {
    let request = Request {
        values: [own as u64, height.into()],
        ..Request::default()
    };
    let mut powers = powers.to_vec();
    let areas = Areas {
        numbers: bytes_mut(&mut powers),
        written: journal,
        ..Areas::default()
    };
    call(Call::Create, request, areas)
}

pub fn open(journal: &[u8], used: usize, table: &mut [u64]) -> Reply {
    wake(Call::Open, journal, used, table, &mut [])
}

pub fn again(journal: &[u8], used: usize, table: &mut [u64], said: &mut [u8]) -> Reply {
    wake(Call::Again, journal, used, table, said)
}

/// Opening with or without an area for what is said again.
fn wake(which: Call, journal: &[u8], used: usize, table: &mut [u64], said: &mut [u8]) -> Reply {
    let request = Request {
        values: [used as u64, 0],
        ..Request::default()
    };
    let areas = Areas {
        numbers: bytes_mut(table),
        written: said,
        read: journal,
    };
    call(which, request, areas)
}

pub fn put(kiosk: &Kiosk, input: &Input, table: &mut [u64], journal: &mut [u8]) -> Reply {
    let request = Request {
        kiosk: *kiosk,
        input: *input,
        ..Request::default()
    };
    let areas = Areas {
        numbers: bytes_mut(table),
        written: journal,
        ..Areas::default()
    };
    call(Call::Put, request, areas)
}

pub fn last(kiosk: &Kiosk, journal: &[u8]) -> Part {
    let request = Request {
        kiosk: *kiosk,
        ..Request::default()
    };
    let areas = Areas {
        read: journal,
        ..Areas::default()
    };
    call(Call::Last, request, areas)
}

pub fn list(journal: &[u8], text: &mut [u8]) -> Page {
    let areas = Areas {
        written: text,
        read: journal,
        ..Areas::default()
    };
    call(Call::List, Request::default(), areas)
}

pub fn kiosk_number(kiosk: &Kiosk, field: usize, index: usize) -> u64 {
    let request = Request {
        kiosk: *kiosk,
        values: [field as u64, index as u64],
        ..Request::default()
    };
    call(Call::KioskNumber, request, Areas::default())
}

pub fn input_number(input: &Input, field: usize) -> u64 {
    let request = Request {
        input: *input,
        values: [field as u64, 0],
        ..Request::default()
    };
    call(Call::InputNumber, request, Areas::default())
}

pub fn layout(kiosk: &Kiosk, first: u8) -> Reply {
    let request = Request {
        kiosk: *kiosk,
        values: [first.into(), 0],
        ..Request::default()
    };
    call(Call::Layout, request, Areas::default())
}
