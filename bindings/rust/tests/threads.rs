//! Misuse of each call, tapes, logic units and reports, and two threads with a network each, whose
//! answers are compared with a plain copy of the memory. The case is that of HMC_TEST_CASE: two cubes of 1,024 bytes, no requests.

use hmc::{kind, Error, Manner, Memory, Session, Step, Unit, Verdict, Went};
use std::collections::HashMap;

const NO_MASK: [u8; 16] = [0; 16];
const COUNT: u64 = 2000;
const CUBES: u64 = 2;
const BLOCKS: u64 = 64;
/// It reverses blocks of cube 1.
const REVERSE: Unit = Unit {
    kind: 0,
    cube: 1,
    code: 3,
};
const REQUEST: &str = "0 unit3 1 0x40 000102030405060708090a0b0c0d0e0f";

fn case() -> String {
    let path = std::env::var("HMC_TEST_CASE").expect("HMC_TEST_CASE names a case");
    std::fs::read_to_string(path).expect("the case can be read")
}

fn is_send<T: Send>() {}

#[test]
fn misuse() {
    is_send::<Session>();
    is_send::<Memory>();
    assert_eq!(Session::open("no case").err(), Some(Error::Bad));
    let mut session = Session::open(&case()).unwrap();
    assert!(session.entry().is_none());
    assert!(session.line().is_none());
    assert_eq!(session.request(1, hmc::RD16, 0, 0, &[]), Err(Error::NoHost));
    assert_eq!(session.request(0, hmc::RD16, 2, 0, &[]), Err(Error::NoCube));
    assert_eq!(session.request(0, 0, 0, 0, &[]), Err(Error::Bad));
    assert_eq!(
        session.request(0, hmc::WR16, 0, 0, &[0; 15]),
        Err(Error::Bad)
    );
    assert_eq!(
        session.request(0, hmc::RD16, 0, 1 << 34, &[]),
        Err(Error::Bad)
    );
    assert_eq!(session.finish(8), Err(Error::NoHost));
    assert_eq!(
        session.step(Step::Send, 4, 0, 0, &NO_MASK),
        Err(Error::None)
    );
    assert_eq!(session.step(Step::Give, 0, 0, 0, &NO_MASK), Ok(Went::Waits));
    let manner = Manner {
        is_poisoned: true,
        ..Manner::default()
    };
    session.request_as(manner, 0, hmc::RD16, 0, 0, &[]).unwrap();
    assert_eq!(session.step(Step::Give, 0, 0, 0, &NO_MASK), Ok(Went::Taken));
    assert!(session.entry().unwrap().poisoned);
    session.finish(0).unwrap();
    assert_eq!(session.step(Step::Give, 0, 0, 0, &NO_MASK), Ok(Went::Taken));
    assert_eq!(session.line().unwrap(), "idle give 0 ended\n");
    assert_eq!(session.entry().unwrap().kind, kind::IDLE);
    assert_eq!(
        session.request(0, hmc::RD16, 0, 0, &[]),
        Err(Error::Finished)
    );
    assert_eq!(session.ask("0 rd17 0 0"), Err(Error::Bad));
    assert_eq!(session.lay("round"), Err(Error::Bad));
    assert_eq!(session.tape_script(), None);
    assert_eq!(session.tape_schedule(), None);
    assert_eq!(Memory::open("no case").err(), Some(Error::Bad));
    let no_unit = [Unit {
        kind: 2,
        cube: 0,
        code: 0,
    }];
    assert_eq!(
        Session::open_with(&case(), &no_unit).err(),
        Some(Error::None)
    );
    assert_eq!(
        Session::open_taped(&case(), &[REVERSE; 9]).err(),
        Some(Error::None)
    );
    assert_eq!(hmc::run_case(&case(), &no_unit), Err(Error::None));
    assert_eq!(hmc::run_case("no case", &[]), Err(Error::Bad));
    assert_eq!(hmc::check(&case(), "", &no_unit), Err(Error::None));
    assert_eq!(hmc::check("no case", "", &[]), Err(Error::Bad));
    assert_eq!(hmc::crc(&[]), 0);
}

/// A session with a tape and a unit. The case with its tape has its lines.
#[test]
fn tapes() {
    let units = [REVERSE];
    let mut session = Session::open_taped(&case(), &units).unwrap();
    assert_eq!(session.tape_schedule().unwrap(), "");
    session.ask(REQUEST).unwrap();
    session.finish(0).unwrap();
    session.lay("round 1000").unwrap();
    let mut lines = String::new();
    while !lines.contains("\ntook ") && session.run(1, 0).unwrap() == 1 {
        lines += &session.line().unwrap();
    }
    let script = session.tape_script().unwrap();
    assert_eq!(script, format!("{REQUEST}\n"));
    let schedule = session.tape_schedule().unwrap();
    assert!(schedule.len() > 4096 && schedule.starts_with("give 0\n"));
    let tape = case()
        .replace("script = ''", &format!("script = '''\n{script}'''"))
        .replace("schedule = ''", &format!("schedule = '''\n{schedule}'''"));
    let report = hmc::run_case(&tape, &units).unwrap();
    assert!(!report.passed && report.text.starts_with(&lines));
    let entries = lines.lines().count() as u32;
    let verdict = hmc::check(&tape, &report.text, &units);
    assert_eq!(verdict, Ok(Verdict::Lawful(entries)));
    let verdict = hmc::check(&tape, &report.text, &[]).unwrap();
    assert!(matches!(verdict, Verdict::Unlawful(_)));
    let changed = report.text.replacen("gave", "give", 1);
    assert_eq!(
        hmc::check(&tape, &changed, &units),
        Ok(Verdict::Unlawful(1))
    );
}

/// What a memory with a tape saves is a case, and its report has the answer.
#[test]
fn saved_cases() {
    let path = std::env::temp_dir().join(format!("hmc-rust-{}.toml", std::process::id()));
    let mut memory = Memory::open_taped(&case()).unwrap();
    memory.request(0, hmc::RD16, 1, 0x40, &[], 7).unwrap();
    while memory.waiting() > 0 {
        memory.go().unwrap();
    }
    memory.save(&path).unwrap();
    let saved = std::fs::read_to_string(&path).unwrap();
    std::fs::remove_file(&path).unwrap();
    let report = hmc::run_case(&saved, &[]).unwrap();
    assert!(report.text.contains("\ntook 0 0 read 0 000000000000"));
    let lost = memory.save("/no/such/folder/case.toml").unwrap_err();
    assert_eq!(lost.kind(), std::io::ErrorKind::NotFound);
    assert!(Memory::open(&case()).unwrap().save("/dev/null").is_err());
    assert_eq!(Memory::open_taped("no case").err(), Some(Error::Bad));
}

/// A text that is no case has a fault, with its section, line and kind.
#[test]
fn faults() {
    let few = case().replacen("tokens = 34", "tokens = 16", 1);
    let fault = hmc::fault(&few).unwrap().unwrap();
    assert_eq!(fault.to_string(), "bad link 0 range");
    assert_eq!(hmc::fault("no case").unwrap().unwrap().section, "toml");
    assert_eq!(hmc::fault(&case()), Ok(None));
}

/// Requests at random places, no place used twice at once, and the number of steps.
fn traffic(mut seed: u64) -> u64 {
    let mut memory = Memory::open(&case()).unwrap();
    let mut random = move |limit: u64| {
        seed = seed
            .wrapping_mul(6364136223846793005)
            .wrapping_add(1442695040888963407);
        (seed >> 33) % limit
    };
    let mut copy: HashMap<(u64, u64), [u8; 16]> = HashMap::new();
    let mut flying: HashMap<u64, Option<[u8; 16]>> = HashMap::new();
    let (mut asked, mut rounds) = (0, 0);
    while asked < COUNT || memory.waiting() != 0 {
        let (cube, block) = (random(CUBES), random(BLOCKS));
        let id = cube * BLOCKS + block;
        if asked < COUNT && !flying.contains_key(&id) {
            let was = copy.get(&(cube, block)).copied().unwrap_or([0; 16]);
            let bytes: [u8; 16] = std::array::from_fn(|_| random(256) as u8);
            let is_write = random(2) == 1;
            let (code, payload) = if is_write {
                (hmc::WR16, &bytes[..])
            } else {
                (hmc::RD16, &[][..])
            };
            memory
                .request(0, code, cube as u8, block * 16, payload, id)
                .unwrap();
            flying.insert(id, if is_write { None } else { Some(was) });
            if is_write {
                copy.insert((cube, block), bytes);
            }
            asked += 1;
        }
        while let Some(done) = memory.go().unwrap() {
            assert_eq!(done.entry.kind, kind::TOOK);
            match flying.remove(&done.id).expect("a request that was asked") {
                Some(bytes) => assert_eq!(done.entry.returned(), bytes),
                None => assert_eq!(done.entry.answer, 1),
            }
        }
        rounds += 1;
    }
    assert!(flying.is_empty());
    rounds * u64::from(memory.steps_of_round())
}

#[test]
fn two_threads() {
    let threads: Vec<_> = (1..3)
        .map(|seed| {
            // Opened here and moved, so that a network leaves the thread that opened it.
            let mut moved = Session::open(&case()).unwrap();
            std::thread::spawn(move || {
                assert_eq!(moved.step(Step::Send, 0, 0, 0, &NO_MASK), Ok(Went::Taken));
                traffic(seed)
            })
        })
        .collect();
    for thread in threads {
        println!("{} steps", thread.join().unwrap());
    }
}
