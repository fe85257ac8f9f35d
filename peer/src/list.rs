//! The listing of a message (document 01, section 8).

use crate::message::{
    demand_clear_columns, demand_end, demand_header, ANSWERS_TAG, BLOCK_HEADER, COLUMNS_TAG, SESSION_HEADER,
    SESSION_TAG, SHAPE_TAG,
};
use crate::shape::Shape;
use crate::text::hex;
use crate::verdict::Verdict;

/// What the lister's program reads at most: the longest message and one byte more.
pub const MOST_READ: usize = 32_796;

/// What a message without a refusal lists.
struct Listed<'a> {
    name: &'static str,
    shape: Shape,
    session: &'a [u8],
    block: usize,
}

/// Reads a message with no caller's shape: refusals 1 to 5 stand where an operation gives 11, and
/// the tag at byte 24 is either one.
fn read(message: &[u8]) -> Result<Listed<'_>, Verdict> {
    demand_header(message, 0, SHAPE_TAG, 6)?;
    let shape = Shape::of_field(&message[3..SESSION_HEADER]);
    shape.check()?;
    demand_header(message, SESSION_HEADER, SESSION_TAG, 12)?;
    let session = &message[12..BLOCK_HEADER];
    let answers = message.get(BLOCK_HEADER) == Some(&ANSWERS_TAG);
    let (name, tag, block) = if answers {
        ("answers", ANSWERS_TAG, shape.strings())
    } else {
        ("columns", COLUMNS_TAG, shape.columns())
    };
    demand_header(message, BLOCK_HEADER, tag, block)?;
    demand_end(message, block)?;
    if !answers {
        demand_clear_columns(message, shape)?;
    }
    Ok(Listed { name, shape, session, block })
}

/// Three lines, or one line that names the refusal.
pub fn list(message: &[u8]) -> String {
    match read(message) {
        Ok(Listed { name, shape, session, block }) => {
            let Shape { mode, rows, places, bytes } = shape;
            let session = hex(session);
            format!("{name} mode {mode} rows {rows} places {places} bytes {bytes}\nsession {session}\nblock {block}\n")
        }
        Err(Verdict { code, place }) => format!("refused {code} at {place}\n"),
    }
}

#[cfg(test)]
mod tests {
    use super::*;
    use crate::text::bytes;

    fn example() -> Vec<u8> {
        bytes("01000601000100020102000c000102030405060708090a0b040002aabb")
    }

    #[test]
    fn example_of_section_8() {
        let wanted = "answers mode 1 rows 1 places 2 bytes 1\nsession 000102030405060708090a0b\nblock 2\n";
        assert_eq!(list(&example()), wanted);
        assert_eq!(list(&[]), "refused 10 at 0\n");
    }

    #[test]
    fn refusals_of_the_example_cut_short() {
        for length in 0..29 {
            let header = match length {
                0..9 => 0,
                9..24 => 9,
                _ => 24,
            };
            assert_eq!(list(&example()[..length]), format!("refused 10 at {header}\n"), "{length}");
        }
        let longer = [example(), vec![0]].concat();
        assert_eq!(list(&longer), "refused 10 at 29\n");
    }

    #[test]
    fn shape_is_tried_before_the_second_header() {
        for (field, code) in [
            ("000001000201", 1),
            ("010000000201", 2),
            ("010001000301", 3),
            ("010001000200", 4),
            ("020400010020", 5),
        ] {
            let mut message = example();
            message[3..9].copy_from_slice(&bytes(field));
            message[9] = 99;
            assert_eq!(list(&message), format!("refused {code} at 0\n"));
            assert_eq!(list(&message[..9]), format!("refused {code} at 0\n"));
        }
    }

    #[test]
    fn padding_of_a_column_message() {
        let front = bytes("01000601000700020102000c000102030405060708090a0b030080");
        let message = [front, vec![0; 128]].concat();
        let wanted = "columns mode 1 rows 7 places 2 bytes 1\nsession 000102030405060708090a0b\nblock 128\n";
        assert_eq!(list(&message), wanted);
        for i in [0, 64, 127] {
            let mut set = message.clone();
            set[27 + i] = 0x80;
            assert_eq!(list(&set), format!("refused 13 at {i}\n"));
        }
    }
}
