//! The fields of each entry of a session that takes the steps of its case, by their names, with the
//! line of that entry, as fields.c writes them; without a case the layout of what is read.
//! Usage: fields CASE [CASE ..]

use hmc::{kind, Entry, Session, Step, Unit};
use std::io::{self, BufWriter, Write};
use std::mem::{size_of, MaybeUninit};
use std::ptr::addr_of;

const UNITS: [Unit; 2] = [
    Unit {
        kind: 0,
        cube: 0,
        code: 0,
    },
    Unit {
        kind: 1,
        cube: 0,
        code: 1,
    },
];

macro_rules! numbers {
    ($out:expr, $entry:expr, $($field:ident)*) => {
        $(write!($out, " {}={}", stringify!($field), u64::from($entry.$field))?;)*
    };
}

macro_rules! places {
    ($word:expr, $of:ty, $($field:ident)*) => {
        let whole = MaybeUninit::<$of>::uninit();
        let at = whole.as_ptr();
        // SAFETY: the place of a field is taken, and nothing is read there.
        $(let place = unsafe { addr_of!((*at).$field) } as usize - at as usize;
        println!("{} {} {}", $word, stringify!($field), place);)*
        println!("{} - {}", $word, size_of::<$of>());
    };
}

macro_rules! kinds {
    ($($name:ident)*) => {
        $(println!("constant {} {}", stringify!($name), kind::$name);)*
    };
}

macro_rules! steps {
    ($($name:ident)*) => {
        $(println!("constant {} {}", stringify!($name).to_uppercase(), Step::$name as u8);)*
    };
}

fn show_constants() {
    kinds!(GAVE SENT LANDED SHIFTED DROPPED SPREAD_TO EXECUTED LIFTED TOOK DISCARDED WENT_THROUGH
        UNLOCKED RETIRED LANDING_PASSED IDLE);
    steps!(Give Send Land Shift Spread Bank Registers Lift Take Through Unlock Retire);
    println!("constant NO_TAG {}", hmc::NO_TAG);
    println!("constant REGISTERS_OF {}", hmc::REGISTERS_OF);
}

fn hex(out: &mut impl Write, name: &str, bytes: &[u8]) -> io::Result<()> {
    write!(out, " {name}=")?;
    bytes.iter().try_for_each(|byte| write!(out, "{byte:02x}"))
}

fn show(out: &mut impl Write, entry: &Entry) -> io::Result<()> {
    write!(out, "entry")?;
    numbers!(out, entry, address value length returned_length tag kind a b c host command cube
        answer cause step what outcome flag poisoned);
    hex(out, "flit", &entry.flit)?;
    hex(out, "payload", entry.payload())?;
    hex(out, "returned", entry.returned())?;
    writeln!(out)
}

fn take(out: &mut impl Write, path: &str) -> io::Result<()> {
    let text = std::fs::read_to_string(path)?;
    let Ok(mut session) = Session::open_with(&text, &UNITS) else {
        return Ok(());
    };
    for host in 0.. {
        if session.finish(host).is_err() {
            break;
        }
    }
    writeln!(out, "case {path}")?;
    while let Ok(1) = session.run(1, 0) {
        let (entry, line) = (session.entry().unwrap(), session.line().unwrap());
        show(out, &entry)?;
        write!(out, "line {line}")?;
    }
    Ok(())
}

fn main() -> io::Result<()> {
    let mut out = BufWriter::new(io::stdout().lock());
    let paths: Vec<String> = std::env::args().skip(1).collect();
    if paths.is_empty() {
        drop(out);
        places!("unit", Unit, kind cube code);
        places!("entry", Entry, address value length returned_length tag kind a b c host command
            cube answer cause step what outcome flag poisoned flit payload returned);
        show_constants();
        return Ok(());
    }
    paths.iter().try_for_each(|path| take(&mut out, path))?;
    out.flush()
}
