//! wasmi, as run.py of ../libraries and ../kernels runs it.
//!
//! usage: peer-wasmi plain|fuel call FILE CALLS            calls `run` CALLS times in one instance
//!        peer-wasmi plain|fuel work FILE OP INPUT CALLS   calls `uv_work` CALLS times, each in a fresh instance
//!        peer-wasmi plain|fuel load FILE CALLS            compiles FILE CALLS times, and keeps each
//!        peer-wasmi fuel fuel FILE UNITS                  calls `line` with UNITS of fuel, then `count`
//!        peer-wasmi fuel late FILE CALLS UNITS            calls `run`, which never ends, and stops it at a deadline, CALLS times, in slices of UNITS
//!
//! It prints what it computed and the nanoseconds of the fastest call; `load` prints the resident bytes that a kept module takes, `fuel` the
//! result of `count` and the fuel used, `late` by how many nanoseconds it stopped too late, in the mean and at worst.
use std::time::{Duration, Instant};
use wasmi::{AsContextMut, Caller, CompilationMode, Config, Engine, Extern, ExternType, Instance, Linker, Module, ResumableCall, Store, Val, ValType};

const AMPLE: u64 = 1 << 50;
const DEADLINE: Duration = Duration::from_millis(5);

#[derive(Default)]
struct Request {
    input: Vec<u8>,
    reply: Vec<u8>,
}

/// The range of bytes at `at`, `length` long, if it lies within `bytes`.
fn range(bytes: &[u8], at: u32, length: u32) -> Option<std::ops::Range<usize>> {
    let end = at as usize + length as usize;
    (end <= bytes.len()).then_some(at as usize..end)
}

fn in_copy(mut caller: Caller<Request>, to: u32, from: u32, length: u32) -> i32 {
    let Some(Extern::Memory(memory)) = caller.get_export("memory") else { return -14 };
    let (bytes, request) = memory.data_and_store_mut(&mut caller);
    let Some(source) = range(&request.input, from, length) else { return -22 };
    let Some(target) = range(bytes, to, length) else { return -14 };
    bytes[target].copy_from_slice(&request.input[source]);
    0
}

fn out_set(mut caller: Caller<Request>, at: u32, length: u32) -> i32 {
    let Some(Extern::Memory(memory)) = caller.get_export("memory") else { return -14 };
    let (bytes, request) = memory.data_and_store_mut(&mut caller);
    let Some(source) = range(bytes, at, length) else { return -14 };
    request.reply = bytes[source].to_vec();
    0
}

struct Peer {
    engine: Engine,
    linker: Linker<Request>,
    module: Module,
    has_fuel: bool,
}

impl Peer {
    fn new(config: &Config, has_fuel: bool, bytes: &[u8]) -> Peer {
        let engine = Engine::new(config);
        let module = Module::new(&engine, bytes).expect("a module");
        let mut linker = Linker::new(&engine);
        linker.func_wrap("uv", "in_len", |caller: Caller<Request>| caller.data().input.len() as i32).unwrap();
        linker.func_wrap("uv", "in_copy", in_copy).unwrap();
        linker.func_wrap("uv", "out_set", out_set).unwrap();
        for import in module.imports().filter(|it| !matches!(it.name(), "in_len" | "in_copy" | "out_set")) {
            let ExternType::Func(of) = import.ty() else { continue };
            let minus_one = of.results().iter().map(|it| if *it == ValType::I64 { Val::I64(-1) } else { Val::I32(-1) }).collect::<Vec<_>>();
            let answer = move |_: Caller<Request>, _: &[Val], results: &mut [Val]| {
                results.clone_from_slice(&minus_one);
                Ok(())
            };
            linker.func_new(import.module(), import.name(), of.clone(), answer).unwrap();
        }
        Peer { engine, linker, module, has_fuel }
    }

    fn instance(&self, input: &[u8]) -> (Store<Request>, Instance) {
        let mut store = Store::new(&self.engine, Request { input: input.to_vec(), ..Request::default() });
        if self.has_fuel {
            store.set_fuel(AMPLE).unwrap();
        }
        let instance = self.linker.instantiate_and_start(&mut store, &self.module).expect("an instance");
        (store, instance)
    }

    fn call(&self, calls: u32) {
        let (mut store, instance) = self.instance(&[]);
        let run = instance.get_typed_func::<(), i32>(&store, "run").expect("a function run");
        let (result, least) = fastest(calls, || run.call(store.as_context_mut(), ()).expect("a result"));
        println!("{} {}", result as u32, least.as_nanos());
    }

    fn work(&self, op: u32, input: &[u8], calls: u32) {
        let ((result, reply), least) = fastest(calls, || {
            let (mut store, instance) = self.instance(input);
            let work = instance.get_typed_func::<i32, i32>(&store, "uv_work").expect("a function uv_work");
            let result = work.call(&mut store, op as i32).expect("a result");
            (result, std::mem::take(&mut store.data_mut().reply))
        });
        println!("{} {} {}", result, hex(&reply), least.as_nanos());
    }

    fn fuel(&self, units: u64) {
        let (mut store, instance) = self.instance(&[]);
        let line = instance.get_typed_func::<(), i32>(&store, "line").expect("a function line");
        let count = instance.get_typed_func::<(), i32>(&store, "count").expect("a function count");
        store.set_fuel(units).unwrap();
        let _ = line.call(&mut store, ());
        let used = units - store.get_fuel().unwrap();
        store.set_fuel(AMPLE).unwrap();
        println!("{} {}", count.call(&mut store, ()).expect("a result"), used);
    }

    /// By how much a call of `run` that is stopped at its deadline is late.
    fn late(&self, units: u64) -> Duration {
        let (mut store, instance) = self.instance(&[]);
        let run = instance.get_func(&store, "run").expect("a function run");
        let (begin, mut result) = (Instant::now(), [Val::I32(0)]);
        store.set_fuel(units).unwrap();
        let mut call = run.call_resumable(&mut store, &[], &mut result).expect("a call");
        while begin.elapsed() < DEADLINE {
            let ResumableCall::OutOfFuel(paused) = call else { panic!("run ended") };
            store.set_fuel(units).unwrap();
            call = paused.resume(&mut store, &mut result).expect("a call");
        }
        begin.elapsed() - DEADLINE
    }
}

fn show_lateness(all: &[Duration]) {
    let mean = all.iter().sum::<Duration>() / all.len() as u32;
    println!("{} {}", mean.as_nanos(), all.iter().max().expect("a call").as_nanos());
}

fn hex(bytes: &[u8]) -> String {
    let sum = bytes.iter().fold(0xcbf29ce484222325_u64, |sum, it| (sum ^ u64::from(*it)).wrapping_mul(0x100000001b3));
    format!("{}:{sum:016x}", bytes.len())
}

fn fastest<T>(calls: u32, mut call: impl FnMut() -> T) -> (T, Duration) {
    let mut timed = || {
        let began = Instant::now();
        let result = call();
        (result, began.elapsed())
    };
    let (mut result, mut least) = timed();
    for _ in 1..calls {
        let (other, took) = timed();
        (result, least) = (other, least.min(took));
    }
    (result, least)
}

fn resident() -> u64 {
    let pages = std::fs::read_to_string("/proc/self/statm").expect("Linux's /proc");
    pages.split_whitespace().nth(1).and_then(|it| it.parse::<u64>().ok()).expect("a number of pages") * 4096
}

/// A module stays in its engine's memory, so each one has an engine of its own.
fn load(config: &Config, bytes: &[u8], calls: u32) {
    let one = || {
        let engine = Engine::new(config);
        let module = Module::new(&engine, bytes).expect("a module");
        (engine, module)
    };
    let warm = one();
    let before = resident();
    let mut kept = Vec::new();
    let (_, least) = fastest(calls, || kept.push(one()));
    println!("{} {}", (resident() - before) / u64::from(calls), least.as_nanos());
    drop((warm, kept));
}

fn main() {
    let words = std::env::args().collect::<Vec<_>>();
    let number = |at: usize| words[at].parse::<u32>().expect("a number");
    let bytes = std::fs::read(&words[3]).expect("a file");
    let has_fuel = words[1] == "fuel";
    let mut config = Config::default();
    config.consume_fuel(has_fuel).compilation_mode(CompilationMode::Eager);
    match words[2].as_str() {
        "call" => Peer::new(&config, has_fuel, &bytes).call(number(4)),
        "work" => Peer::new(&config, has_fuel, &bytes).work(number(4), &std::fs::read(&words[5]).expect("a file"), number(6)),
        "load" => load(&config, &bytes, number(4)),
        "fuel" => Peer::new(&config, has_fuel, &bytes).fuel(number(4).into()),
        "late" => {
            let peer = Peer::new(&config, has_fuel, &bytes);
            show_lateness(&(0..number(4)).map(|_| peer.late(number(5).into())).collect::<Vec<_>>());
        }
        other => panic!("no command {other}"),
    }
}
