//! With the guests of hosts/guest and examples.
use std::time::{Duration, Instant};
use tokio::time::{sleep, timeout};
use wasmloop_tokio::{call, work, Error, Failed, Instance, Limits, Module, RequestError, Served, Task};

const LIMITS: Limits = Limits { fuel: 100_000_000, work_fuel: 100_000_000, number: 0, depth: 64 };
const ENDLESS: u64 = 1 << 50;

fn module(name: &str) -> Module {
    let path = format!("{}/../../{name}.wasm", env!("CARGO_MANIFEST_DIR"));
    Module::new(&std::fs::read(path).unwrap()).unwrap()
}

fn task(op: u32, fuel: u64) -> Task {
    Task { fuel, op, depth: 64 }
}

fn echo() -> Served {
    Served::new(&module("hosts/guest/echo"), LIMITS).unwrap()
}

#[tokio::test]
async fn work_returns_its_reply() {
    let rules = module("hosts/guest/rules");
    assert_eq!(work(&rules, task(0, 1_000_000), b"Hello, World 42").await.unwrap().reply().unwrap(), b"hello-world-42");
    assert!(matches!(work(&rules, task(0, 1), &[0; 65_537]).await, Err(Error::Range { .. })));
}

#[tokio::test]
async fn hostile_guests_end() {
    let rules = module("hosts/guest/rules");
    for (op, wanted) in [(1, "spent"), (2, "trap"), (4, "spent"), (5, "spent"), (6, "depth")] {
        let about = work(&rules, task(op, 1_000_000), b"x").await.unwrap().about().unwrap();
        assert_eq!(wasmloop::outcome_name(about.outcome), Some(wanted), "operation {op}");
    }
}

/// A timeout ends a call within a slice, and the instance keeps its state.
#[tokio::test(flavor = "current_thread")]
async fn a_call_ends_and_its_instance_lives_on() {
    let (rules, limit) = (module("hosts/guest/rules"), Duration::from_millis(50));
    let (mut it, running) = (Instance::new(&rules, 1_000_000, 64).unwrap(), rules.export("running").unwrap());
    assert_eq!(call(&mut it, &running, &[3], ENDLESS, 64).await.unwrap().results(), [3]);
    for name in ["spin", "grow", "copies"] {
        let (export, began) = (rules.export(name).unwrap(), Instant::now());
        assert!(timeout(limit, call(&mut it, &export, &[1], ENDLESS, 64)).await.is_err(), "{name}");
        assert!(began.elapsed() < Duration::from_secs(1), "{name}");
    }
    for (name, args) in [("deep", &[1][..]), ("divide", &[1, 0])] {
        let error = call(&mut it, &rules.export(name).unwrap(), args, 1_000_000, 64).await.unwrap_err();
        assert!(matches!(error, Error::Stopped { .. }), "{name}: {error}");
    }
    assert_eq!(call(&mut it, &running, &[4], ENDLESS, 64).await.unwrap().results(), [7]);
}

/// On one thread, a timer goes on beside endless guests, and a timeout ends them.
#[tokio::test(flavor = "current_thread")]
async fn others_go_on() {
    let (rules, began) = (module("hosts/guest/rules"), Instant::now());
    let guests = async {
        let limit = Duration::from_millis(300);
        let one = |op| timeout(limit, work(&rules, task(op, ENDLESS), b"x"));
        let (spin, grow, copies) = tokio::join!(one(1), one(4), one(5));
        assert!(spin.is_err() && grow.is_err() && copies.is_err());
    };
    let ticks = async {
        let mut count = 0;
        while began.elapsed() < Duration::from_millis(250) {
            sleep(Duration::from_millis(1)).await;
            count += 1;
        }
        count
    };
    let (_, count) = tokio::join!(guests, ticks);
    assert!(count >= 5, "{count} ticks in 250 ms");
    assert!(began.elapsed() < Duration::from_secs(10));
}

#[tokio::test]
async fn sends_and_requests() {
    let mut served = echo();
    let asks = served.asks();
    sleep(Duration::from_millis(50)).await;                 // it sleeps for ever now
    asks.send(0).unwrap();
    assert_eq!(served.emitted().await, Some(100));
    let mut wanted = Vec::new();
    for length in 0..5 {
        let number = asks.request(0, &vec![b'x'; length]).await.unwrap();
        wanted.push(i64::from(number) << 32 | length as i64);
    }
    let mut got = Vec::new();
    for _ in &wanted {
        got.push(served.emitted().await.unwrap());
    }
    got.sort_unstable();
    assert_eq!(got, wanted);
    assert!(matches!(asks.request(0, &[0; 65_537]).await, Err(RequestError::Refused(-22))));
    asks.send(16).unwrap();
    assert!(asks.request(0, b"").await.is_ok());
}

#[tokio::test]
async fn a_callback_fails() {
    let mut served = echo();
    let asks = served.asks();
    asks.send(1).unwrap();
    assert_eq!(served.emitted().await, None);
    let error = served.over().await.unwrap_err();
    assert!(error.to_string().starts_with("a callback did not return: unreachable, after ") && error.to_string().contains(", in function 9 (on_fail), "), "{error}");
    assert!(matches!(error, Failed::Callback { .. }));
    assert!(asks.send(0).is_err());
    assert!(matches!(asks.request(0, b"").await, Err(RequestError::Closed)));
}

#[tokio::test(flavor = "current_thread")]
async fn an_endless_callback_and_endless_work_end_with_the_loop() {
    let served = Served::new(&module("hosts/guest/echo"), Limits { fuel: ENDLESS, work_fuel: ENDLESS, ..LIMITS }).unwrap();
    let asks = served.asks();
    asks.request(1, b"").await.unwrap();
    asks.send(2).unwrap();
    sleep(Duration::from_millis(20)).await;
    let waits = tokio::spawn(async move { asks.request(0, b"late").await });
    sleep(Duration::from_millis(20)).await;
    drop(served);
    assert!(matches!(timeout(Duration::from_secs(2), waits).await.unwrap().unwrap(), Err(RequestError::Closed)));
}

#[tokio::test]
async fn a_request_is_cancelled() {
    let served = Served::new(&module("hosts/guest/echo"), Limits { work_fuel: ENDLESS, ..LIMITS }).unwrap();
    let asks = served.asks();
    for _ in 0..100 {                                       // more than the 32 that may be outstanding
        let number = asks.request(1, b"").await.unwrap();
        assert_eq!(asks.cancel(number).await.unwrap(), 0);
        assert_ne!(asks.cancel(number).await.unwrap(), 0);
    }
}

#[tokio::test(flavor = "multi_thread", worker_threads = 2)]
async fn loops_of_the_examples() {
    for name in ["ticker", "digest", "chatter"] {
        let mut served = Served::new(&module(&format!("examples/{name}")), LIMITS).unwrap();
        let mut values = 0;
        while served.emitted().await.is_some() {
            values += 1;
        }
        served.over().await.unwrap();
        assert!(values > 0, "{name}");
        Served::new(&module(&format!("examples/{name}")), LIMITS).unwrap().over().await.unwrap();
    }
}

#[tokio::test(flavor = "multi_thread", worker_threads = 2)]
async fn many_loops() {
    let tasks: Vec<_> = (0..60).map(|length| tokio::spawn(async move {
        let mut served = echo();
        served.asks().send(0).unwrap();
        served.asks().request(0, &vec![b'y'; length]).await.unwrap();
        let mut got = [served.emitted().await.unwrap() as u32, served.emitted().await.unwrap() as u32];
        got.sort_unstable();
        let mut wanted = [100, length as u32];
        wanted.sort_unstable();
        assert_eq!(got, wanted);
    })).collect();
    for task in tasks {
        task.await.unwrap();
    }
}
