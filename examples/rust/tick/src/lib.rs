//! A timer that ticks three times.
#![no_std]

#[macro_use]
mod uv;

use uv::Local;

static TICKS: Local<i32> = Local::new(0);

extern "C" fn on_tick(timer: i32) {
    uv::emit(uv::now() as i64);
    TICKS.set(TICKS.get() + 1);
    if TICKS.get() == 3 {
        uv::timer_stop(timer);
    }
}

uv_main!({
    let timer = uv::timer_init();
    uv::timer_start(timer, on_tick, 10, 10);
});

uv_panic!();
