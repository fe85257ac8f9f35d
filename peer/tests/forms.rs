//! The form from seeds gives what the other gives on the expanded columns (document 01, section 5).

use peer::bits::bit;
use peer::expand::expand;
use peer::generate::Stream;
use peer::{
    answer_from_columns, answer_from_seeds, prepare_from_columns, prepare_from_seeds, Shape, SUCCESS,
};

fn shapes() -> Vec<Shape> {
    let rows = [1, 7, 8, 9, 64, 511, 513, 1_024];
    rows.into_iter().flat_map(|rows| [1, 2].map(|mode| Shape { mode, rows, places: 2, bytes: 3 })).collect()
}

#[test]
fn seeds_and_expanded_columns_agree() {
    for (seed, shape) in (0..).zip(shapes()) {
        let mut stream = Stream::of_seed(seed);
        let (session, secret) = (stream.bytes(12), stream.bytes(shape.row()));
        let (first, second) = (stream.bytes(shape.seeds()), stream.bytes(shape.seeds()));
        let (strings, selections) = (stream.bytes(shape.strings()), vec![1; shape.m()]);
        let columns = [&first, &second].map(|seeds| expand(seeds, &session, shape));

        let mut messages = [0, 1].map(|old| vec![old; 27 + shape.columns()]);
        let mut kept = [0, 1].map(|old| vec![old; shape.kept()]);
        let [m0, m1] = &mut messages;
        let [k0, k1] = &mut kept;
        assert_eq!(prepare_from_seeds(shape, &session, &first, &second, &selections, m0, k0), SUCCESS);
        let given = prepare_from_columns(shape, &session, &columns[0], &columns[1], &selections, m1, k1);
        assert_eq!((given, m0, k0), (SUCCESS, m1, k1));

        let taken: Vec<u8> = (0..shape.k())
            .flat_map(|i| if bit(&secret, i) == 0 { &first[32 * i..][..32] } else { &second[32 * i..][..32] })
            .copied()
            .collect();
        let expanded = expand(&taken, &session, shape);
        let mut answers = [0, 1].map(|old| vec![old; 27 + shape.strings()]);
        let [a0, a1] = &mut answers;
        let received = &messages[0];
        assert_eq!(answer_from_seeds(shape, &session, &secret, &taken, &strings, received, a0), SUCCESS);
        let given = answer_from_columns(shape, &session, &secret, &expanded, &strings, received, a1);
        assert_eq!((given, a0), (SUCCESS, a1));
    }
}
