//! A guest that emits for ever, to a host that takes nothing: the loop waits. (A process of its own: its memory is measured.)
use std::time::Duration;
use tokio::time::sleep;
use wasmloop_tokio::{Limits, Module, Served, MOST_EMITTED, MOST_WORK};

fn resident() -> u64 {
    let pages = std::fs::read_to_string("/proc/self/statm").unwrap();
    pages.split(' ').nth(1).unwrap().parse::<u64>().unwrap() * 4096
}

#[tokio::test(flavor = "multi_thread", worker_threads = 2)]
async fn what_nobody_takes_stays_in_the_guest() {
    let bytes = std::fs::read(concat!(env!("CARGO_MANIFEST_DIR"), "/../guest/echo.wasm")).unwrap();
    let limits = Limits { fuel: 1_000_000, work_fuel: 1_000_000, number: 0, depth: 64 };
    let mut served = Served::new(&Module::new(&bytes).unwrap(), limits).unwrap();
    served.asks().send(3).unwrap();
    assert_eq!(served.emitted().await, Some(0));
    let before = resident();
    sleep(Duration::from_millis(700)).await;
    assert!(resident() < before + (4 << 20), "{before} bytes were resident, now {}", resident());
    for _ in 0..4 * MOST_EMITTED {
        assert_eq!(served.emitted().await, Some(0));
    }
}

/// A guest that queues endless work and cancels it, for ever: what runs is bounded, and ends with the loop.
#[tokio::test(flavor = "multi_thread", worker_threads = 2)]
async fn what_is_cancelled_is_bounded() {
    let bytes = std::fs::read(concat!(env!("CARGO_MANIFEST_DIR"), "/../guest/echo.wasm")).unwrap();
    let limits = Limits { fuel: 100_000_000, work_fuel: 1 << 50, number: 0, depth: 64 };
    let served = Served::new(&Module::new(&bytes).unwrap(), limits).unwrap();
    served.asks().send(4).unwrap();
    sleep(Duration::from_millis(300)).await;
    assert_eq!(served.working(), MOST_WORK);
    drop(served);
    sleep(Duration::from_millis(50)).await;
}
