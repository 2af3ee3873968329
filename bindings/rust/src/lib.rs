//! A proved model of a network of Hybrid Memory Cubes, for benches in Rust.
//!
//! A [`Session`] is asked and stepped call by call, as bindings/c/hmc.h has it. A [`Memory`] is
//! stepped in rounds, and returns which requests are done. Both can be moved to another thread, and
//! are for one thread at a time. [`run_case`] has the report of a whole case, and [`check`] says
//! whether a report is that of a case. What can't be done is an [`Error`], and changes nothing,
//! except that [`Session::run`] may have taken steps before.
//!
//! ```no_run
//! let case = std::fs::read_to_string("case.toml").unwrap();
//! let mut memory = hmc::Memory::open(&case)?;
//! memory.request(0, hmc::RD16, 0, 0x40, &[], 7)?;
//! let done = loop {
//!     if let Some(done) = memory.go()? {
//!         break done;
//!     }
//! };
//! assert_eq!((done.id, done.entry.returned().len()), (7, 16));
//! # Ok::<(), hmc::Error>(())
//! ```

mod raw;

pub use raw::{Entry, Unit};

use std::ffi::CString;
use std::fmt;
use std::io;
use std::os::unix::ffi::OsStrExt;
use std::path::Path;
use std::ptr::null_mut;

/// In place of a tag: none.
pub const NO_TAG: u16 = 65535;
/// In place of the number of a vault: the registers of the cube.
pub const REGISTERS_OF: u8 = 255;
/// The codes of reads and writes of 16 bytes; those of 32 to 128 follow them.
pub const RD16: u8 = 48;
pub const WR16: u8 = 8;
/// The codes of reads and writes of 256 bytes.
pub const RD256: u8 = 119;
pub const WR256: u8 = 79;

const OK: u8 = 0;
const PASSED: u8 = 7;
const NONE: u8 = 8;
const WAITS: u8 = 10;
const UNLAWFUL: u8 = 20;
const LINE_BYTES: usize = 2048;
/// The first room for a text of a tape, and for a report. A longer one takes a second call.
const TAPE_ROOM: usize = 4096;
const REPORT_ROOM: usize = 1 << 20;

/// Kinds of steps, each with the numbers that name its part.
#[derive(Clone, Copy, Debug, PartialEq, Eq)]
#[repr(u8)]
pub enum Step {
    /// host
    Give = 0,
    /// direction
    Send = 1,
    /// direction
    Land = 2,
    /// cube, port
    Shift = 3,
    /// cube, vault
    Spread = 4,
    /// cube, vault, bank
    Bank = 5,
    /// cube
    Registers = 6,
    /// cube, vault, or [`REGISTERS_OF`]
    Lift = 7,
    /// host
    Take = 8,
    /// cube, port
    Through = 9,
    /// direction
    Unlock = 10,
    /// slot
    Retire = 11,
}

/// The kinds of entries, as [`Entry`]'s `kind` has them.
pub mod kind {
    pub const GAVE: u8 = 1;
    pub const SENT: u8 = 2;
    pub const LANDED: u8 = 3;
    pub const SHIFTED: u8 = 4;
    pub const DROPPED: u8 = 5;
    pub const SPREAD_TO: u8 = 6;
    pub const EXECUTED: u8 = 7;
    pub const LIFTED: u8 = 8;
    pub const TOOK: u8 = 9;
    pub const DISCARDED: u8 = 10;
    pub const WENT_THROUGH: u8 = 11;
    pub const UNLOCKED: u8 = 12;
    pub const RETIRED: u8 = 13;
    pub const LANDING_PASSED: u8 = 14;
    pub const IDLE: u8 = 15;
}

/// Why a call did nothing.
#[derive(Clone, Copy, Debug, PartialEq, Eq)]
pub enum Error {
    /// Out of memory.
    Memory,
    /// The text is no case, no request or no schedule, or the numbers are no request.
    Bad,
    /// There is no such step, or a logic unit is none.
    None,
    /// A check succeeded over flits that masks changed: no step may follow.
    Passed,
    /// No step may be taken any more.
    Over,
    NoHost,
    NoCube,
    /// The host is finished.
    Finished,
    /// The host was asked for as many requests as it may be.
    Full,
    /// A status that this version doesn't know.
    Unknown(u8),
}

impl Error {
    fn of(status: u8) -> Error {
        match status {
            1 => Error::Memory,
            6 => Error::Bad,
            PASSED => Error::Passed,
            NONE => Error::None,
            11 => Error::Over,
            12 => Error::NoHost,
            13 => Error::NoCube,
            14 => Error::Finished,
            15 => Error::Full,
            other => Error::Unknown(other),
        }
    }
}

impl fmt::Display for Error {
    fn fmt(&self, f: &mut fmt::Formatter<'_>) -> fmt::Result {
        match self {
            Error::Memory => f.write_str("out of memory"),
            Error::Bad => f.write_str("no case, no request or no schedule"),
            Error::None => f.write_str("no such step, or no logic unit"),
            Error::Passed => f.write_str("a changed flit passed"),
            Error::Over => f.write_str("no step may be taken any more"),
            Error::NoHost => f.write_str("no such host"),
            Error::NoCube => f.write_str("no such cube"),
            Error::Finished => f.write_str("the host is finished"),
            Error::Full => f.write_str("the host was asked too often"),
            Error::Unknown(status) => write!(f, "status {status}"),
        }
    }
}

impl std::error::Error for Error {}

/// The first fault of a text that is no case: it is shown as `bad link 0 range`.
#[derive(Clone, Debug, PartialEq, Eq)]
pub struct Fault {
    /// One of `toml`, `top`, `cube`, `net`, `link`, `script` and `schedule`.
    pub section: &'static str,
    /// Of a cube or a link its number, from 0; of a script or a schedule its line, from 1; else 0.
    pub line: u32,
    /// What is wrong, in a word.
    pub kind: String,
}

impl fmt::Display for Fault {
    fn fmt(&self, f: &mut fmt::Formatter<'_>) -> fmt::Result {
        write!(f, "bad {} {} {}", self.section, self.line, self.kind)
    }
}

const SECTIONS: [&str; 7] = ["toml", "top", "cube", "net", "link", "script", "schedule"];

/// The first fault of a text; `None` where it is a case.
pub fn fault(case: &str) -> Result<Option<Fault>, Error> {
    let mut out = raw::RawFault {
        line: 0,
        section: 0,
        word: [0; 16],
    };
    // SAFETY: the text has so many bytes, and the fault has its layout.
    match unsafe { raw::hmc_fault(case.as_ptr(), case.len(), &mut out) } {
        OK => Ok(Some(Fault {
            section: SECTIONS.get(out.section as usize).copied().unwrap_or("?"),
            line: out.line,
            kind: out
                .word
                .iter()
                .take_while(|it| **it != 0)
                .map(|it| *it as char)
                .collect(),
        })),
        NONE => Ok(None),
        status => Err(Error::of(status)),
    }
}

fn checked(status: u8) -> Result<(), Error> {
    if status == OK {
        Ok(())
    } else {
        Err(Error::of(status))
    }
}

/// What became of a step that may be taken.
#[derive(Clone, Copy, Debug, PartialEq, Eq)]
pub enum Went {
    /// It was taken.
    Taken,
    /// It was taken, and a check succeeded over flits that masks changed: no step may follow.
    Passed,
    /// It is a give of a host that has nothing to give and may be asked: it wasn't taken.
    Waits,
}

/// How a request is asked (docs/script.md); the default is neither.
#[derive(Clone, Copy, Debug, Default, PartialEq, Eq)]
pub struct Manner {
    /// Its host gives it when no answer is awaited.
    pub is_fenced: bool,
    /// Links carry it whole, and it has no effect at its cube.
    pub is_poisoned: bool,
}

/// A text that a call writes into a room, with its length also where it doesn't fit: then there is
/// a second call. The status is left to be judged.
fn written(room: usize, mut write: impl FnMut(*mut u8, usize, &mut usize) -> u8) -> (u8, String) {
    let mut text = vec![0; room];
    let mut length = 0;
    let mut status = write(text.as_mut_ptr(), text.len(), &mut length);
    if status == NONE && length > text.len() {
        text.resize(length, 0);
        status = write(text.as_mut_ptr(), text.len(), &mut length);
    }
    text.truncate(length);
    (status, String::from_utf8_lossy(&text).into_owned())
}

/// A session of a case (docs/case.md), closed when it is dropped.
pub struct Session(raw::Handle);

// A session shares nothing with another one, and has no thread of its own.
unsafe impl Send for Session {}

impl Session {
    /// Opens a session of the case that the text is.
    pub fn open(case: &str) -> Result<Session, Error> {
        Session::open_with(case, &[])
    }

    /// The same with at most 8 logic units: the one at place i is in slot i.
    pub fn open_with(case: &str, units: &[Unit]) -> Result<Session, Error> {
        let mut session = Session(raw::Handle { at: null_mut() });
        let (text, length) = (case.as_ptr(), case.len());
        // SAFETY: the text has so many bytes, there are so many units, and the handle is closed.
        checked(unsafe {
            raw::hmc_open_with(text, length, units.as_ptr(), units.len(), &mut session.0)
        })?;
        Ok(session)
    }

    /// The same with a tape, which [`tape_script`](Session::tape_script) and
    /// [`tape_schedule`](Session::tape_schedule) have.
    pub fn open_taped(case: &str, units: &[Unit]) -> Result<Session, Error> {
        let mut session = Session(raw::Handle { at: null_mut() });
        let (text, length) = (case.as_ptr(), case.len());
        // SAFETY: the text has so many bytes, there are so many units, and the handle is closed.
        checked(unsafe {
            raw::hmc_open_taped(text, length, units.as_ptr(), units.len(), &mut session.0)
        })?;
        Ok(session)
    }

    /// Asks for the one request that a text states, in the words of a script (docs/script.md).
    pub fn ask(&mut self, text: &str) -> Result<(), Error> {
        // SAFETY: the text has so many bytes.
        checked(unsafe { raw::hmc_ask(&mut self.0, text.as_ptr(), text.len()) })
    }

    /// Lays down the steps that a text states, in the words of a schedule (docs/schedule.md), in
    /// place of those that are left.
    pub fn lay(&mut self, text: &str) -> Result<(), Error> {
        // SAFETY: the text has so many bytes.
        checked(unsafe { raw::hmc_lay(&mut self.0, text.as_ptr(), text.len()) })
    }

    /// Takes laid steps, and tries at most so many, up to an entry whose [`kind`] k has the bit k
    /// set in `stops`. Returns how many were taken; an error may come after steps were taken.
    pub fn run(&mut self, most: u32, stops: u32) -> Result<u32, Error> {
        let mut steps = 0;
        // SAFETY: the handle is open.
        match unsafe { raw::hmc_run(&mut self.0, most, stops, &mut steps) } {
            OK | NONE => Ok(steps),
            status => Err(Error::of(status)),
        }
    }

    /// Asks a host for one request more: the code of its command (docs/packets.md), its cube, an
    /// address below 2^34, and as many bytes as the command has.
    pub fn request(
        &mut self,
        host: u8,
        code: u8,
        cube: u8,
        address: u64,
        payload: &[u8],
    ) -> Result<(), Error> {
        self.request_as(Manner::default(), host, code, cube, address, payload)
    }

    /// The same, fenced or poisoned.
    pub fn request_as(
        &mut self,
        manner: Manner,
        host: u8,
        code: u8,
        cube: u8,
        address: u64,
        payload: &[u8],
    ) -> Result<(), Error> {
        // SAFETY: the payload has so many bytes.
        checked(unsafe {
            raw::hmc_request(
                &mut self.0,
                host,
                manner.is_fenced,
                manner.is_poisoned,
                code,
                cube,
                address,
                payload.as_ptr(),
                payload.len(),
            )
        })
    }

    /// Asks a host for nothing more from now on.
    pub fn finish(&mut self, host: u8) -> Result<(), Error> {
        // SAFETY: the handle is open.
        checked(unsafe { raw::hmc_finish(&mut self.0, host) })
    }

    /// Takes a step. The mask of a landing has the bits that are inverted in its flit.
    pub fn step(
        &mut self,
        kind: Step,
        a: u8,
        b: u8,
        c: u8,
        mask: &[u8; 16],
    ) -> Result<Went, Error> {
        // SAFETY: the handle is open.
        match unsafe { raw::hmc_step(&mut self.0, kind as u8, a, b, c, mask) } {
            OK => Ok(Went::Taken),
            PASSED => Ok(Went::Passed),
            WAITS => Ok(Went::Waits),
            status => Err(Error::of(status)),
        }
    }

    /// The latest entry, if there is one.
    pub fn entry(&mut self) -> Option<Entry> {
        let mut entry = Entry::EMPTY;
        // SAFETY: the handle is open, and the entry has its layout.
        let status = unsafe { raw::hmc_entry(&mut self.0, &mut entry) };
        (status == OK).then_some(entry)
    }

    /// The line of the latest entry, with its line feed, if there is one.
    pub fn line(&mut self) -> Option<String> {
        let mut text = vec![0; LINE_BYTES];
        let mut length = 0;
        // SAFETY: the text has room for so many bytes.
        let status =
            unsafe { raw::hmc_line(&mut self.0, text.as_mut_ptr(), text.len(), &mut length) };
        text.truncate(length);
        (status == OK).then(|| String::from_utf8_lossy(&text).into_owned())
    }

    /// The requests so far, as a script, if the session has a tape.
    pub fn tape_script(&mut self) -> Option<String> {
        // SAFETY: there is room for so many bytes.
        let (status, text) = written(TAPE_ROOM, |out, room, length| unsafe {
            raw::hmc_tape_script(&mut self.0, out, room, length)
        });
        (status == OK).then_some(text)
    }

    /// The steps so far, as a schedule, if the session has a tape.
    pub fn tape_schedule(&mut self) -> Option<String> {
        // SAFETY: there is room for so many bytes.
        let (status, text) = written(TAPE_ROOM, |out, room, length| unsafe {
            raw::hmc_tape_schedule(&mut self.0, out, room, length)
        });
        (status == OK).then_some(text)
    }
}

impl Drop for Session {
    fn drop(&mut self) {
        // SAFETY: the handle is this one's own.
        unsafe { raw::hmc_close(&mut self.0) }
    }
}

/// A request that is done: its number, and its answer, or for a posted request what was given.
#[derive(Clone, Debug)]
pub struct Done {
    pub id: u64,
    pub entry: Entry,
}

/// A network that is stepped in rounds and returns which requests are done.
pub struct Memory(*mut raw::Driver);

// A memory shares nothing with another one, and has no thread of its own.
unsafe impl Send for Memory {}

impl Memory {
    /// Opens a network of a case whose script has no requests.
    pub fn open(case: &str) -> Result<Memory, Error> {
        let mut status = OK;
        // SAFETY: the text has so many bytes.
        let driver = unsafe { raw::hmc_driver_open(case.as_ptr(), case.len(), &mut status) };
        Memory::of(driver, status)
    }

    /// The same with a tape, which `save` writes.
    pub fn open_taped(case: &str) -> Result<Memory, Error> {
        let mut status = OK;
        // SAFETY: the text has so many bytes.
        let driver = unsafe { raw::hmc_driver_open_taped(case.as_ptr(), case.len(), &mut status) };
        Memory::of(driver, status)
    }

    fn of(driver: *mut raw::Driver, status: u8) -> Result<Memory, Error> {
        if driver.is_null() {
            return Err(Error::of(status));
        }
        Ok(Memory(driver))
    }

    /// Writes the case that replays what was done so far to a file, of a memory with a tape.
    pub fn save(&mut self, path: impl AsRef<Path>) -> io::Result<()> {
        let path = CString::new(path.as_ref().as_os_str().as_bytes())?;
        // SAFETY: the driver is open, and the path ends with a zero.
        match unsafe { raw::hmc_driver_save(self.0, path.as_ptr()) } {
            OK => Ok(()),
            NONE => Err(io::Error::last_os_error()),
            status => Err(io::Error::new(io::ErrorKind::Other, Error::of(status))),
        }
    }

    /// Asks a host for a request, as [`Session::request`] does; `id` comes back when it is done.
    pub fn request(
        &mut self,
        host: u8,
        code: u8,
        cube: u8,
        address: u64,
        payload: &[u8],
        id: u64,
    ) -> Result<(), Error> {
        // SAFETY: the driver is open, and the payload has so many bytes.
        checked(unsafe {
            raw::hmc_driver_request(
                self.0,
                host,
                code,
                cube,
                address,
                payload.as_ptr(),
                payload.len(),
                id,
            )
        })
    }

    /// Takes the round on, up to a request that is done, or to its end, which is `None`.
    pub fn go(&mut self) -> Result<Option<Done>, Error> {
        let mut done = Done {
            id: 0,
            entry: Entry::EMPTY,
        };
        // SAFETY: the driver is open, and the entry has its layout.
        match unsafe { raw::hmc_driver_go(self.0, &mut done.id, &mut done.entry) } {
            OK => Ok(Some(done)),
            NONE => Ok(None),
            status => Err(Error::of(status)),
        }
    }

    /// The requests that aren't done.
    pub fn waiting(&self) -> u64 {
        // SAFETY: the driver is open.
        unsafe { raw::hmc_driver_waiting(self.0) }
    }

    /// The hosts of the network.
    pub fn hosts(&self) -> u8 {
        // SAFETY: the driver is open.
        unsafe { raw::hmc_driver_hosts(self.0) }
    }

    /// The steps of a round.
    pub fn steps_of_round(&self) -> u32 {
        // SAFETY: the driver is open.
        unsafe { raw::hmc_driver_steps_of_round(self.0) }
    }
}

impl Drop for Memory {
    fn drop(&mut self) {
        // SAFETY: the driver is this one's own.
        unsafe { raw::hmc_driver_close(self.0) }
    }
}

/// A report (docs/report.md), and whether it ends with a landing that passed.
#[derive(Clone, Debug, PartialEq, Eq)]
pub struct Report {
    pub text: String,
    pub passed: bool,
}

/// The report of a case with at most 8 logic units.
pub fn run_case(case: &str, units: &[Unit]) -> Result<Report, Error> {
    let (status, text) = written(REPORT_ROOM, |out, room, length| {
        let (at, count) = (units.as_ptr(), units.len());
        // SAFETY: the text has so many bytes, there are so many units, and room for so many bytes.
        unsafe { raw::hmc_run_case(case.as_ptr(), case.len(), at, count, out, room, length) }
    });
    match status {
        OK | PASSED => Ok(Report {
            text,
            passed: status == PASSED,
        }),
        status => Err(Error::of(status)),
    }
}

/// What a check says of a report.
#[derive(Clone, Copy, Debug, PartialEq, Eq)]
pub enum Verdict {
    /// It is that of the case, and has so many entries.
    Lawful(u32),
    /// It isn't: this line, from 1, is the first that shows it.
    Unlawful(u32),
}

/// Whether a report is that of a case with at most 8 logic units.
pub fn check(case: &str, report: &str, units: &[Unit]) -> Result<Verdict, Error> {
    let mut number = 0;
    // SAFETY: both texts have so many bytes, and there are so many units.
    let status = unsafe {
        raw::hmc_check(
            case.as_ptr(),
            case.len(),
            report.as_ptr(),
            report.len(),
            units.as_ptr(),
            units.len(),
            &mut number,
        )
    };
    match status {
        OK => Ok(Verdict::Lawful(number)),
        UNLAWFUL => Ok(Verdict::Unlawful(number)),
        status => Err(Error::of(status)),
    }
}

/// The check of a packet: the CRC of its bytes (docs/crc.md).
pub fn crc(bytes: &[u8]) -> u32 {
    // SAFETY: there are so many bytes.
    unsafe { raw::hmc_crc(bytes.as_ptr(), bytes.len()) }
}
