// A static table that `init` fills, and a log.
#[macro_use]
mod uv;

uv_log!(64);

static SQUARES: uv::Local<[i32; 64]> = uv::Local::new([0; 64]);

#[no_mangle]
pub extern "C" fn init() {
    let mut squares = [0; 64];
    for (number, square) in squares.iter_mut().enumerate() {
        *square = (number * number) as i32 * 3 + 1;
    }
    SQUARES.set(squares);
    guest_log("filled");
}

uv_work!(|op| {
    guest_log("work");
    SQUARES.get()[(op & 63) as usize]
});
