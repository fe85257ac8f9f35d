//! A libFuzzer target over the proved library's listing and open. Whatever the bytes are: no crash, no byte
//! read or written outside a buffer, peer's verdict, bytes and text, and on a refusal old bytes only.

mod guarded;
mod input;
#[path = "../../peer/tests/library/mod.rs"]
#[allow(dead_code)]
mod library;

use std::cell::RefCell;
use std::ffi::c_int;

use guarded::{is_old, Guarded};
use input::Input;
use peer::SUCCESS;

/// The longest text of a listing, and the length that its buffer must have.
const TEXT: usize = 128;

/// One buffer for each slice that a call is lent, in the order of open's parameters; a listing uses the
/// last two.
struct Memory {
    session: Guarded,
    selections: Guarded,
    kept: Guarded,
    received: Guarded,
    output: Guarded,
}

thread_local! {
    static MEMORY: RefCell<Memory> = RefCell::new(Memory {
        session: Guarded::new(),
        selections: Guarded::new(),
        kept: Guarded::new(),
        received: Guarded::new(),
        output: Guarded::new(),
    });
}

fn list(memory: &mut Memory, message: &[u8]) {
    let received = memory.received.lend_copy(message);
    let text = memory.output.lend(TEXT);
    let length = library::list_into(received, text);
    assert!(received == message, "the message was changed");
    assert!(length <= TEXT, "a text of {length} bytes");
    assert!(text[..length] == *peer::list(message).as_bytes(), "another text than peer's");
    assert!(text[length..].iter().all(|byte| *byte == 0), "text behind its length");
    memory.output.check_front(TEXT);
}

/// Where the text's buffer has another length there is no text, and the buffer is as it was.
fn list_into_another_length(memory: &mut Memory, message: &[u8], length: usize) {
    let received = memory.received.lend_copy(message);
    let text = memory.output.lend(length);
    assert!(library::list_into(received, text) == 0 && is_old(text), "a text in a buffer of {length} bytes");
    memory.output.check_front(length);
}

fn open(memory: &mut Memory, input: &Input) {
    let Input { message, shape, session, selections, kept, opened, .. } = input;
    let mut wanted = vec![0; *opened];
    let verdict = peer::open(*shape, session, selections, kept, message, &mut wanted);
    let output = memory.output.lend(*opened);
    let given = (library::CALLS.open)(
        *shape,
        memory.session.lend_copy(session),
        memory.selections.lend_copy(selections),
        memory.kept.lend_copy(kept),
        memory.received.lend_copy(message),
        output,
    );
    assert!(given == verdict, "{given:?}, but peer gives {verdict:?}");
    assert!(
        if given == SUCCESS { *output == wanted[..] } else { is_old(output) },
        "other bytes after {given:?}"
    );
    memory.output.check_front(*opened);
}

/// What libFuzzer calls.
///
/// # Safety
/// `data` has `size` bytes, as libFuzzer promises.
#[no_mangle]
#[allow(non_snake_case)]
pub unsafe extern "C" fn LLVMFuzzerTestOneInput(data: *const u8, size: usize) -> c_int {
    let bytes: &[u8] = if size == 0 { &[] } else { std::slice::from_raw_parts(data, size) };
    let Some(input) = Input::of(bytes) else { return 0 };
    MEMORY.with_borrow_mut(|memory| {
        list(memory, &input.message);
        if input.text != TEXT {
            list_into_another_length(memory, &input.message, input.text);
        }
        open(memory, &input);
    });
    0
}
