//! Says which call was under way where the program ends early: by a touch of a guard's page, by another
//! fault of the machine, by the clock where a call does not return, or by a reading that stops.
use std::ffi::{c_int, c_uint, c_void};
use std::sync::atomic::{AtomicUsize, Ordering::Relaxed};

const SIGILL: c_int = 4;
const SIGABRT: c_int = 6;
const SIGBUS: c_int = 7;
const SIGFPE: c_int = 8;
const SIGSEGV: c_int = 11;
const SIGALRM: c_int = 14;

/// The seconds that a block of calls may take.
const LONGEST: c_uint = 300;

/// On a stack of its own, which Rust gives its first thread: a call may have run out of the other.
const SA_ONSTACK: c_int = 0x0800_0000;

/// The C library's record of x86-64.
#[repr(C)]
struct Action {
    handler: extern "C" fn(c_int),
    mask: [u64; 16],
    flags: c_int,
    restorer: usize,
}

extern "C" {
    fn sigaction(number: c_int, action: *const Action, before: *mut Action) -> c_int;
    fn alarm(seconds: c_uint) -> c_uint;
    fn write(fd: c_int, bytes: *const c_void, count: usize) -> isize;
    fn _exit(status: c_int) -> !;
}

/// The command up to the place, by its address and its length, and the place of the call under way.
static TEXT: [AtomicUsize; 2] = [AtomicUsize::new(0), AtomicUsize::new(0)];
static PLACE: AtomicUsize = AtomicUsize::new(0);

pub fn install() {
    let action = Action {
        handler: told,
        mask: [0; 16],
        flags: SA_ONSTACK,
        restorer: 0,
    };
    for number in [SIGILL, SIGABRT, SIGBUS, SIGFPE, SIGSEGV, SIGALRM] {
        // SAFETY: the handler uses nothing but atomics, `write` and `_exit`.
        let set = unsafe { sigaction(number, &action, std::ptr::null_mut()) };
        assert_eq!(set, 0, "signal {number} is not handled");
    }
    std::panic::set_hook(Box::new(|panic| {
        println!("{panic}");
        end(b"differing: a reading stopped: ")
    }));
}

/// A block of calls starts: the command that repeats one of them, up to its place.
pub fn block(repeat: &'static str) {
    TEXT[0].store(repeat.as_ptr() as usize, Relaxed);
    TEXT[1].store(repeat.len(), Relaxed);
    // SAFETY: it sets the clock of this process.
    unsafe { alarm(LONGEST) };
}

pub fn place(place: u64) {
    PLACE.store(place as usize, Relaxed);
}

fn print(bytes: &[u8]) {
    // SAFETY: the bytes are there.
    unsafe { write(1, bytes.as_ptr().cast(), bytes.len()) };
}

extern "C" fn told(number: c_int) {
    end(match number {
        SIGALRM => b"differing: a call did not return: ",
        SIGSEGV | SIGBUS => b"differing: a call touched what it was not lent: ",
        _ => b"differing: a call ended the program: ",
    })
}

/// Ends the program with what happened and the command that repeats the call under way.
fn end(what: &[u8]) -> ! {
    print(what);
    let [at, len] = [0, 1].map(|part| TEXT[part].load(Relaxed));
    if at > 0 {
        // SAFETY: the text lives as long as the program.
        print(unsafe { std::slice::from_raw_parts(at as *const u8, len) });
    }
    let mut digits = [0; 20];
    let mut rest = PLACE.load(Relaxed);
    let mut first = digits.len();
    while first == digits.len() || rest > 0 {
        first -= 1;
        digits[first] = b'0' + (rest % 10) as u8;
        rest /= 10;
    }
    print(&digits[first..]);
    print(b" repeats it\n");
    // SAFETY: it ends the program.
    unsafe { _exit(1) }
}
