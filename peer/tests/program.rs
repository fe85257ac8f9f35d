//! The program itself, as it is run.

use std::io::Write;
use std::process::{Command, Output, Stdio};

use peer::text::bytes;

fn peer(words: &[&str], input: &[u8]) -> Output {
    let program = env!("CARGO_BIN_EXE_peer");
    let mut child = Command::new(program)
        .args(words)
        .stdin(Stdio::piped())
        .stdout(Stdio::piped())
        .stderr(Stdio::piped())
        .spawn()
        .expect("the program starts");
    child.stdin.take().expect("its input").write_all(input).expect("it reads its input");
    child.wait_with_output().expect("it ends")
}

// Section 8: the example, the empty input, and no more than 32,796 bytes read.
#[test]
fn lists_standard_input() {
    let example = bytes("01000601000100020102000c000102030405060708090a0b040002aabb");
    let listed = peer(&["list"], &example).stdout;
    let wanted = "answers mode 1 rows 1 places 2 bytes 1\nsession 000102030405060708090a0b\nblock 2\n";
    assert_eq!(String::from_utf8_lossy(&listed), wanted);
    assert_eq!(peer(&["list"], &[]).stdout, b"refused 10 at 0\n");
    let longer = [example, vec![0; 10_000]].concat();
    assert_eq!(peer(&["list"], &longer).stdout, b"refused 10 at 29\n");
}

#[test]
fn writes_what_it_is_asked_for() {
    assert_eq!(peer(&["cases"], &[]).stdout, peer::expected::case_lines().into_bytes());
    assert_eq!(peer(&["case-table"], &[]).stdout, include_bytes!("../cases.txt"));
    assert_eq!(peer(&["vectors"], &[]).stdout, peer::vectors::vectors().into_bytes());
    for wrong in [&[][..], &["nothing"], &["cases", "more"]] {
        let refused = peer(wrong, &[]);
        assert_eq!((refused.status.code(), refused.stdout.len()), (Some(2), 0));
    }
}
