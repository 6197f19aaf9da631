//! The calls on the examples of this repository, and on the plug-in that WASMLOOP_PLUGIN names (capi/test/plugins/kv.c), where it does.

use std::{env, fs, thread, time::Duration};
use wasmloop::{Error, Instance, Job, Limits, Loop, Module, Task};

const LIMITS: Limits = Limits { fuel: 1_000_000, work_fuel: 1_000_000, number: 0, depth: 64 };

fn module(name: &str) -> Module {
    let file = format!("{}/../../examples/{name}.wasm", env!("CARGO_MANIFEST_DIR"));
    Module::new(&fs::read(file).unwrap()).unwrap()
}

fn task(fuel: u64) -> Task {
    Task { fuel, op: 0, depth: 64 }
}

/// What is said of a call that is not done.
fn said<T>(result: Result<T, Error>) -> String {
    let error: Box<dyn std::error::Error> = result.err().expect("nothing was refused").into();
    error.to_string()
}

fn goes_to_threads<T: Send>() {}
fn is_shared_by_threads<T: Sync>() {}

#[test]
fn what_threads_may_do() {
    goes_to_threads::<(Module, Loop, Instance, Job, Error)>();
    is_shared_by_threads::<(Module, Error)>();
}

#[test]
fn a_module_is_shared_by_threads() {
    let digests = module("sha256");
    thread::scope(|scope| {
        for _ in 0..4 {
            scope.spawn(|| {
                let mut job = digests.job(task(1_000_000), b"abc").unwrap();
                job.run().unwrap();
                assert_eq!(job.reply().unwrap()[..4], [0xba, 0x78, 0x16, 0xbf]);
                assert_eq!(job.input().unwrap(), b"abc");
            });
        }
    });
    let other = digests.share().unwrap();
    drop(digests);
    let shape = other.shape().unwrap();
    assert!(shape.work == 1 && shape.pages >= 1 && shape.most_pages >= shape.pages);
    assert!(other.warnings().unwrap().is_empty());
    let warning = format!("the module imports {} functions of \"uv\", which return -1 in an instance: ", shape.imports);
    let told = other.instance_warning().unwrap().unwrap();
    assert!(told.starts_with(&warning) && told.contains(": use call_bytes for in_copy and out_set, a Loop for "));
    let empty = Module::new(b"\0asm\x01\0\0\0").unwrap();
    assert!(empty.warnings().unwrap()[0].starts_with("the module exports none of uv_main"));
    assert!(empty.instance_warning().unwrap().is_none());
}

#[test]
fn work_is_told_in_words() {
    let crc = module("crc32");
    let mut job = crc.work(task(1_000_000), b"abc").unwrap();
    assert_eq!(job.value().unwrap(), 891568578);
    let mut reply = [0; 8];
    assert_eq!(job.reply_into(&mut reply).unwrap(), 4);
    assert_eq!(reply, [0x35, 0x24, 0x41, 0xc2, 0, 0, 0, 0]);
    assert_eq!(wasmloop::outcome_name(job.about().unwrap().outcome), Some("done"));
    let signature = crc.function("uv_work").unwrap();
    assert_eq!((signature.params(), signature.results()), (&[1][..], &[1][..]));
    assert_eq!(wasmloop::version(), env!("CARGO_PKG_VERSION"));
    assert_eq!((wasmloop::trap_name(2), wasmloop::trap_name(99)), (Some("division by zero"), None));
    assert_eq!((wasmloop::status_name(4), wasmloop::ending_name(3)), (Some("MEMORY"), Some("spent")));
}

#[test]
fn it_is_told_where_work_stopped() {
    let mut job = module("crc32").job(task(3), b"abc").unwrap();
    assert_eq!(said(job.reply()), "the job has no reply: it has not run yet");
    assert!(!job.run_for(1).unwrap());
    assert_eq!(job.about().unwrap().used, 1);
    assert_eq!(said(job.run()), "the job is paused: continue it with run_for");
    assert!(job.run_for(9).unwrap());
    assert!(matches!(job.reply(), Err(Error::State { status: wasmloop::NONE, .. })));
    assert_eq!(said(job.reply()), "the job has no reply: it ran out of fuel");
    assert!(matches!(job.value(), Err(Error::Stopped { ending: wasmloop::SPENT, trap: 0, used: 3 })));
    let (sites, places) = (job.stop().unwrap(), job.stop_places().unwrap());
    assert_eq!((sites.len(), places.len()), (1, 1));
    let imports = module("crc32").shape().unwrap().imports;
    assert_eq!((places[0].function, places[0].instruction), (sites[0].function + imports, sites[0].operation));
    let bytes = fs::read(format!("{}/../../examples/crc32.wasm", env!("CARGO_MANIFEST_DIR"))).unwrap();
    let told = job.stop_told(&bytes).unwrap().unwrap();
    assert!(told.starts_with(&format!("in function {} (", places[0].function)));
    assert!(told.contains(&format!(", instruction {} (", places[0].instruction)) && told.contains(&format!(" at byte {}", places[0].byte)));
    assert!(matches!(job.stop_told(b"asm"), Err(Error::Status(wasmloop::REFUSED))));
}

/// spin() adds 1 to the global g for ever, count() returns it, and uv_work spins.
#[rustfmt::skip]
const SPINS: &[u8] = &[
    0, 97, 115, 109, 1, 0, 0, 0, 1, 13, 3, 96, 0, 0, 96, 0, 1, 127, 96, 1, 127, 1, 127, 3, 4, 3, 0, 1,
    2, 6, 6, 1, 127, 1, 65, 0, 11, 7, 30, 4, 4, 115, 112, 105, 110, 0, 0, 5, 99, 111, 117, 110, 116, 0, 1, 7,
    117, 118, 95, 119, 111, 114, 107, 0, 2, 1, 103, 3, 0, 10, 30, 3, 14, 0, 3, 64, 35, 0, 65, 1, 106, 36, 0, 12,
    0, 11, 11, 4, 0, 35, 0, 11, 8, 0, 3, 64, 12, 0, 11, 0, 11,
];

#[test]
fn what_is_late_leaves_its_instance() {
    let spins = Module::new(SPINS).unwrap();
    let (mut it, mut other) = (Instance::new(&spins, 1, 64).unwrap(), Instance::new(&spins, 1, 64).unwrap());
    for deadline in [0, 20] {
        let why = it.call_within("spin", &[], 1 << 62, 64, Duration::from_millis(deadline)).unwrap_err();
        let words = why.to_string();
        let (used, place) = match why {
            Error::Late { used, place } => (used, place),
            _ => panic!("{words}"),
        };
        assert!(used > 0 && place.starts_with("in function 0") && place == it.stop_text().unwrap().unwrap());
        assert_eq!(words, format!("the call passed its deadline, after {used} units, {place}"));
        assert!(matches!(other.call("spin", &[], used, 64), Err(Error::Stopped { ending: wasmloop::SPENT, .. })));
        let value = other.global("g").unwrap().unwrap().number;
        assert_eq!((it.global("g").unwrap().unwrap().number, it.call("count", &[], 9, 64).unwrap().results()[0]), (value, value));
    }
    assert_eq!(it.call_within("count", &[], 9, 64, Duration::from_secs(9)).unwrap().text(), "returned, after 1 unit");
    assert!(matches!(spins.work_within(task(1 << 62), b"", Duration::from_millis(5)), Err(Error::Late { place, .. }) if place.starts_with("in function 2")));
    let mut job = spins.work_within(task(1_000_000), b"", Duration::from_secs(9)).unwrap();
    assert_eq!(job.about().unwrap().text(), "out of fuel, after 1,000,000 units");
    assert_eq!(job.stop_text().unwrap(), job.stop_told(SPINS).unwrap());
}

#[test]
fn a_wrong_number_is_told_with_its_range() {
    let (crc, digest) = (module("crc32"), module("digest"));
    let text = "byte 0: the bytes don't begin with 00 61 73 6d: a text file (give the module that wasm-ld wrote)";
    assert_eq!(said(Module::new(b"asm")), text);
    assert_eq!(wasmloop::explain(b"asm").unwrap(), Some(text.into()));
    assert!(matches!(Module::new(b"asm"), Err(Error::Refused { fault, .. }) if fault.name() == Some("Magic")));
    assert_eq!(said(crc.job(task(1), &[0; 65_537])), "length 65537 is out of range: expected 0 to 65536");
    assert_eq!(said(crc.work(Task { depth: 0, ..task(1) }, b"")), "depth 0 is out of range: expected 1 to 128");
    assert_eq!(said(crc.function("nothing")), "no function is exported as \"nothing\"");
    assert_eq!(said(crc.function("uv_work\0")), "no function is exported as \"uv_work\\0\"");
    assert_eq!(said(module("seven").job(task(1), b"")), "the module exports no uv_work");
    assert_eq!(said(Instance::new(&crc, 1, 129)), "depth 129 is out of range: expected 1 to 128");
    assert_eq!(said(Loop::new(&digest, Limits { depth: 129, ..LIMITS })), "depth 129 is out of range: expected 1 to 128");
    let mut one = Loop::new(&digest, LIMITS).unwrap();
    assert_eq!(said(one.turn(0)), "most_callbacks 0 is out of range: expected 1 to 4294967295");
    assert_eq!(said(one.send(16)), "number 16 is out of range: expected 0 to 15");
    let mut job = crc.job(task(1_000_000), b"").unwrap();
    assert_eq!(said(job.run_for(0)), "units 0 is out of range: expected 1 to 18446744073709551615");
    job.run().unwrap();
    assert_eq!(said(job.run()), "the job has already run");
}

#[test]
fn a_loop_goes_by_turns() {
    let mut one = Loop::new(&module("digest"), LIMITS).unwrap();
    let mut other = Loop::new(&module("digest"), Limits { number: 1, ..LIMITS }).unwrap();
    let turned = one.turn(1).unwrap();
    assert_eq!((turned.did.what, turned.callbacks, turned.wait), (wasmloop::RAN, 1, 0));
    let mut job = one.next_job().unwrap().unwrap();
    assert!(!other.start(&mut job).unwrap() && one.start(&mut job).unwrap());
    assert_eq!(one.cancel(job.about().unwrap().request).unwrap(), -16);
    let standing = one.standing().unwrap();
    assert_eq!((standing.alive, standing.failed), (1, 0));
    job.run().unwrap();
    assert!(one.accept(&mut job).unwrap());
    assert_eq!(said(one.accept(&mut job)), "the handle is empty");
    let mut unrun = one.next_job().unwrap().unwrap();
    assert_eq!(said(one.accept(&mut unrun)), "the job has not run yet");
    unrun.run().unwrap();
    assert!(one.accept(&mut unrun).unwrap());
    assert_eq!((one.request(0, b"abc").unwrap(), one.request(0, &[0; 65_537]).unwrap()), (5, -22));
    assert!(one.stop_told(b"").unwrap().is_none() && one.stop_places().unwrap().is_empty());
    let (size, mut first) = (one.size().unwrap(), [7; 4]);
    one.read(0, &mut first).unwrap();
    assert_eq!(said(one.read(size as u32, &mut first)), format!("end {} is out of range: expected 0 to {size}", size + 4));
    assert!(one.global("absent").unwrap().is_none());
}

#[test]
fn a_loop_goes_by_slices() {
    let digests = module("digest");
    let (mut whole, mut cut) = (Loop::new(&digests, LIMITS).unwrap(), Loop::new(&digests, LIMITS).unwrap());
    let mut slices = 0;
    loop {
        let wanted = whole.step().unwrap();
        let did = loop {
            match cut.step_for(7).unwrap() {
                Some(did) => break did,
                None => slices += 1,
            }
        };
        assert_eq!(format!("{did:?}"), format!("{wanted:?}"));
        assert_eq!(cut.emits().unwrap(), whole.emits().unwrap());
        if did.what == wasmloop::RAN {
            break;
        }
    }
    assert!(slices > 1);
    let mut job = cut.next_job().unwrap().unwrap();
    job.run().unwrap();
    let (mut paused, paused_says) = (Loop::new(&digests, LIMITS).unwrap(), "a callback is paused: continue it with step_for or turn_for");
    assert!(paused.turn_for(1, 1).unwrap().is_none());
    assert_eq!((said(paused.step()), said(paused.size()), said(paused.stop())), (paused_says.into(), paused_says.into(), paused_says.into()));
    assert_eq!((said(paused.start(&mut job)), said(paused.accept(&mut job))), (paused_says.into(), paused_says.into()));
    let mut calls = 0;
    let turned = loop {
        calls += 1;
        if let Some(turned) = paused.turn_for(1, 5).unwrap() {
            break turned;
        }
        assert_eq!(paused.turned().wait, 0);
    };
    assert!(calls > 1 && turned.did.what == wasmloop::RAN && turned.callbacks == 1);
    assert_eq!(said(paused.step_for(0)), format!("units 0 is out of range: expected 1 to {}", u64::MAX));
    assert_eq!(said(paused.turn_for(0, 1)), format!("most_callbacks 0 is out of range: expected 1 to {}", u32::MAX));
}

#[test]
fn a_call_with_bytes_is_the_job() {
    let sha = module("sha256");
    let (mut it, work) = (Instance::new(&sha, 1, 64).unwrap(), sha.export("uv_work").unwrap());
    assert!(it.reply().unwrap().is_empty());
    for bytes in [&b"abc"[..], &[], &[7; 65_536]] {
        let mut job = sha.work(task(100_000_000), bytes).unwrap();
        let ended = it.call_bytes(&work, &[0], bytes, 100_000_000, 64).unwrap();
        assert_eq!((ended.results()[0] as i32, ended.used), (job.value().unwrap(), job.about().unwrap().used));
        assert_eq!(it.reply().unwrap(), job.reply().unwrap());
    }
    assert!(it.call_bytes(&work, &[0], &[0; 65_537], 1, 64).is_err());
    assert_eq!(said(it.call_bytes(&work, &[], b"", 1, 64)), "uv_work takes 1 argument, got 0");
    assert_eq!(it.reply().unwrap().len(), 32);
    assert!(matches!(it.call_bytes(&work, &[0], b"abc", 3, 64), Err(Error::Stopped { ending: wasmloop::SPENT, used: 3, .. })));
    assert!(it.reply().unwrap().is_empty());
}

#[test]
fn an_instance_keeps_its_memory() {
    let file = env::var("WASMLOOP_PLUGIN").unwrap_or_default();
    if file.is_empty() {
        return;
    }
    let plugin = Module::new(&fs::read(file).unwrap()).unwrap();
    let mut it = Instance::new(&plugin, 1_000_000, 64).unwrap();
    let mut add = |by: u64| it.call("add", &[by], 1_000_000, 64).unwrap().results()[0];
    assert_eq!((add(5), add(7)), (5, 12));
    let adds = plugin.export("add").unwrap();
    assert_eq!(it.call_at(&adds, &[0], 1_000_000, 64).unwrap().results(), [12]);
    assert_eq!(said(plugin.export("memory")), "no function is exported as \"memory\"");
    assert_eq!(said(it.call_at(&adds, &[], 1, 64)), "add takes 1 argument, got 0");
    let at = it.call("buffer", &[], 1_000_000, 64).unwrap().results()[0] as u32;
    it.write(at, b"apple").unwrap();
    let mut bytes = [0; 5];
    it.read(at, &mut bytes).unwrap();
    assert_eq!(&bytes, b"apple");
    let size = it.size().unwrap() as u32;
    assert!(it.held().unwrap() >= u64::from(size) + 525_320);
    assert_eq!(said(it.read(size, &mut bytes)), format!("end {} is out of range: expected 0 to {size}", size + 5));
    assert_eq!(said(it.write(size, b"x")), format!("end {} is out of range: expected 0 to {size}", size + 1));
    assert!(said(it.call("divide", &[1, 0], 1_000_000, 64)).starts_with("the call trapped: division by zero, after "));
    assert!(!it.stop().unwrap().is_empty());
    assert_eq!(said(it.call("absent", &[], 1, 64)), "no function is exported as \"absent\"");
    assert_eq!(said(it.call("add", &[], 1, 64)), "add takes 1 argument, got 0");
    assert_eq!(said(it.begin("divide", &[1, 1 << 32], 1, 64)), "argument 2 (i32) 4294967296 is out of range: expected 0 to 4294967295; pass -1 as 4294967295");
    it.begin("add", &[10], 1_000_000, 64).unwrap();
    assert!(it.run_for(1).unwrap().is_none());
    assert_eq!(said(it.call("count", &[], 1, 64)), "a call is in progress");
    assert_eq!(said(it.write(at, b"x")), "a call is in progress");
    assert_eq!(said(it.stop_told(b"")), "the bytes are not those of the module");
    assert_eq!((it.stop().unwrap().len(), it.stop_places().unwrap().len(), it.size().unwrap()), (1, 1, u64::from(size)));
    it.read(at, &mut bytes).unwrap();
    assert_eq!(&bytes, b"apple");
    assert_eq!(said(it.run_for(0)), "units 0 is out of range: expected 1 to 18446744073709551615");
    assert_eq!(it.run_for(1_000).unwrap().unwrap().results(), &[1022]);
    assert_eq!(said(it.run_for(1)), "no call is in progress");
    assert_eq!(said(it.end_call()), "no call is in progress");
    it.begin("add", &[10], 1_000_000, 64).unwrap();
    assert!(it.run_for(1).unwrap().is_none());
    assert_eq!(it.end_call().unwrap(), 1);
    assert_eq!(said(it.run_for(1)), "no call is in progress");
    assert!(it.call_for(&adds, &[10], 1_000_000, 64, 1).unwrap().is_none());
    assert_eq!(it.end_call().unwrap(), 1);
    let sum = it.call("add", &[0], 1_000_000, 64).unwrap().results()[0];
    assert_eq!(it.call_for(&adds, &[10], 1_000_000, 64, 1_000).unwrap().unwrap().results(), &[sum + 10]);
    assert_eq!(said(it.begin("absent", &[], 1, 64)), "no function is exported as \"absent\"");
    assert!(it.global("absent").unwrap().is_none());
    assert!(it.call("add", &[0], 1_000_000, 64).is_ok() && it.stop().unwrap().is_empty());
}
