//! The calls of hmc.h and hmc_driver.h.

use std::ffi::c_void;
use std::os::raw::c_char;

/// A handle; null is a closed one.
#[repr(C)]
pub struct Handle {
    pub at: *mut c_void,
}

/// A logic unit (docs/units.md) that never worked: kind 0 reverses blocks, and 1 numbers them; it
/// does the command `unit` with the number `code` of a cube.
#[repr(C)]
#[derive(Clone, Copy, Debug, PartialEq, Eq)]
pub struct Unit {
    pub kind: u8,
    /// Below 8.
    pub cube: u8,
    /// Below 8.
    pub code: u8,
}

/// The first fault of a text.
#[repr(C)]
pub struct RawFault {
    pub line: u32,
    pub section: u8,
    pub word: [u8; 16],
}

/// A driver.
#[repr(C)]
pub struct Driver {
    _private: [u8; 0],
}

/// What the latest step did. What an entry of its kind hasn't is 0, and a tag [`NO_TAG`].
///
/// [`NO_TAG`]: crate::NO_TAG
#[repr(C)]
#[derive(Clone, Debug)]
pub struct Entry {
    /// Of a request; the number of a register for `mdrd` and `mdwr`.
    pub address: u64,
    /// Of a register, or the number of an error.
    pub value: u32,
    /// The bytes of `payload` that count.
    pub length: u32,
    /// The bytes of `returned` that count.
    pub returned_length: u32,
    pub tag: u16,
    pub kind: u8,
    /// The numbers of the entry's parts, in the order of its line.
    pub a: u8,
    pub b: u8,
    pub c: u8,
    /// Of a request that was executed.
    pub host: u8,
    /// The code of a request's command.
    pub command: u8,
    /// Of a request.
    pub cube: u8,
    /// 0 none, 1 done, 2 bytes, 3 a register's value, 4 stored, 5 an error.
    pub answer: u8,
    /// Why nothing was done, 1 to 8.
    pub cause: u8,
    /// The kind of a step that did nothing.
    pub step: u8,
    /// What a flit was sent as, 1 to 8.
    pub what: u8,
    /// What a landing was, 1 to 13.
    pub outcome: u8,
    pub flag: bool,
    pub poisoned: bool,
    pub flit: [u8; 16],
    pub payload: [u8; 256],
    pub returned: [u8; 256],
}

impl Entry {
    /// An entry that no call has written.
    pub(crate) const EMPTY: Entry = Entry {
        address: 0,
        value: 0,
        length: 0,
        returned_length: 0,
        tag: 0,
        kind: 0,
        a: 0,
        b: 0,
        c: 0,
        host: 0,
        command: 0,
        cube: 0,
        answer: 0,
        cause: 0,
        step: 0,
        what: 0,
        outcome: 0,
        flag: false,
        poisoned: false,
        flit: [0; 16],
        payload: [0; 256],
        returned: [0; 256],
    };

    /// The bytes of a request.
    pub fn payload(&self) -> &[u8] {
        &self.payload[..self.length as usize]
    }

    /// The bytes of an answer.
    pub fn returned(&self) -> &[u8] {
        &self.returned[..self.returned_length as usize]
    }
}

#[link(name = "hmc", kind = "static")]
extern "C" {
    pub fn hmc_open_with(
        text: *const u8,
        length: usize,
        units: *const Unit,
        count: usize,
        s: *mut Handle,
    ) -> u8;
    pub fn hmc_open_taped(
        text: *const u8,
        length: usize,
        units: *const Unit,
        count: usize,
        s: *mut Handle,
    ) -> u8;
    pub fn hmc_close(s: *mut Handle);
    pub fn hmc_ask(s: *mut Handle, text: *const u8, length: usize) -> u8;
    pub fn hmc_lay(s: *mut Handle, text: *const u8, length: usize) -> u8;
    pub fn hmc_run(s: *mut Handle, most: u32, stops: u32, steps: *mut u32) -> u8;
    pub fn hmc_tape_script(s: *mut Handle, out: *mut u8, room: usize, length: *mut usize) -> u8;
    pub fn hmc_tape_schedule(s: *mut Handle, out: *mut u8, room: usize, length: *mut usize) -> u8;
    pub fn hmc_run_case(
        text: *const u8,
        length: usize,
        units: *const Unit,
        count: usize,
        out: *mut u8,
        room: usize,
        report_length: *mut usize,
    ) -> u8;
    pub fn hmc_check(
        text: *const u8,
        length: usize,
        report: *const u8,
        report_length: usize,
        units: *const Unit,
        count: usize,
        number: *mut u32,
    ) -> u8;
    pub fn hmc_request(
        s: *mut Handle,
        host: u8,
        fenced: bool,
        poisoned: bool,
        code: u8,
        cube: u8,
        address: u64,
        payload: *const u8,
        length: usize,
    ) -> u8;
    pub fn hmc_finish(s: *mut Handle, host: u8) -> u8;
    pub fn hmc_step(s: *mut Handle, kind: u8, a: u8, b: u8, c: u8, mask: *const [u8; 16]) -> u8;
    pub fn hmc_entry(s: *mut Handle, out: *mut Entry) -> u8;
    pub fn hmc_line(s: *mut Handle, out: *mut u8, room: usize, written: *mut usize) -> u8;
    pub fn hmc_crc(bytes: *const u8, length: usize) -> u32;
    pub fn hmc_driver_open(text: *const u8, length: usize, status: *mut u8) -> *mut Driver;
    pub fn hmc_driver_open_taped(text: *const u8, length: usize, status: *mut u8) -> *mut Driver;
    pub fn hmc_driver_save(d: *mut Driver, path: *const c_char) -> u8;
    pub fn hmc_fault(text: *const u8, length: usize, out: *mut RawFault) -> u8;
    pub fn hmc_driver_close(d: *mut Driver);
    pub fn hmc_driver_hosts(d: *const Driver) -> u8;
    pub fn hmc_driver_steps_of_round(d: *const Driver) -> u32;
    pub fn hmc_driver_waiting(d: *const Driver) -> u64;
    pub fn hmc_driver_request(
        d: *mut Driver,
        host: u8,
        code: u8,
        cube: u8,
        address: u64,
        payload: *const u8,
        length: usize,
        id: u64,
    ) -> u8;
    pub fn hmc_driver_go(d: *mut Driver, id: *mut u64, entry: *mut Entry) -> u8;
}
