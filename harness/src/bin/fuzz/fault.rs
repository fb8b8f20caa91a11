//! Tells at which seed a call touched what it may not.
use std::cell::Cell;

unsafe extern "C" {
    fn signal(number: i32, handler: extern "C" fn(i32)) -> usize;
    fn write(file: i32, bytes: *const u8, number: usize) -> isize;
    fn _exit(status: i32) -> !;
}

const BUS: i32 = 7;
const SEGMENT: i32 = 11;

thread_local! {
    static SEED: Cell<u64> = const { Cell::new(0) };
}

/// The seed of the call that this thread makes now.
pub fn at(seed: u64) {
    SEED.set(seed);
}

pub fn seed() -> u64 {
    SEED.get()
}

/// From here on a fault ends the run with its seed.
pub fn watch() {
    // Safe: the handler calls only what a handler may.
    unsafe {
        signal(BUS, tell);
        signal(SEGMENT, tell);
    }
}

extern "C" fn tell(_: i32) {
    let mut text = *b"a fault at seed                     \n";
    let (mut rest, mut at) = (SEED.get(), text.len() - 1);
    loop {
        at -= 1;
        text[at] = b'0' + (rest % 10) as u8;
        rest /= 10;
        if rest == 0 {
            break;
        }
    }
    // Safe: the bytes are the text's own.
    unsafe {
        write(2, text.as_ptr(), text.len());
        _exit(1)
    }
}
