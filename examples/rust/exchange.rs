// A whole exchange in Rust: a buyer learns one price in each row of a supplier's table, and the supplier does not
// learn which. From the repository's root, once target/host/libcapi.a is built:
//
//   rustc -O -C link-arg=target/host/libcapi.a examples/rust/exchange.rs -o target/host/exchange && target/host/exchange

type In = *const u8;
type Out = *mut u8;

#[rustfmt::skip]
extern "C" {
    fn adw_prepare_from_seeds(mode: u8, rows: u16, places: u16, bytes: u8, session: In, session_len: usize,
        first: In, first_len: usize, second: In, second_len: usize, selections: In, selections_len: usize,
        message: Out, message_len: usize, kept: Out, kept_len: usize) -> u64;
    fn adw_answer_from_seeds(mode: u8, rows: u16, places: u16, bytes: u8, session: In, session_len: usize,
        secret: In, secret_len: usize, taken: In, taken_len: usize, strings: In, strings_len: usize,
        received: In, received_len: usize, message: Out, message_len: usize) -> u64;
    fn adw_open(mode: u8, rows: u16, places: u16, bytes: u8, session: In, session_len: usize,
        selections: In, selections_len: usize, kept: In, kept_len: usize, received: In, received_len: usize,
        opened: Out, opened_len: usize) -> u64;
}

const MODE: u8 = 2;
const M: usize = 3;
const N: usize = 4;
const L: usize = 8;
const K: usize = 256;

/// Nothing, or the refusal's code and place.
type Answered = Result<(), (u64, u64)>;

fn answered(verdict: u64) -> Answered {
    if verdict == 0 {
        return Ok(());
    }
    Err((verdict >> 32, verdict % (1 << 32)))
}

// The layer checks every length itself, so slices are all that these owe it.
#[rustfmt::skip]
fn prepare(session: &[u8], first: &[u8], second: &[u8], selections: &[u8], message: &mut [u8], kept: &mut [u8]) -> Answered {
    answered(unsafe { adw_prepare_from_seeds(MODE, M as u16, N as u16, L as u8, session.as_ptr(), session.len(),
        first.as_ptr(), first.len(), second.as_ptr(), second.len(), selections.as_ptr(), selections.len(),
        message.as_mut_ptr(), message.len(), kept.as_mut_ptr(), kept.len()) })
}

#[rustfmt::skip]
fn answer(session: &[u8], secret: &[u8], taken: &[u8], strings: &[u8], received: &[u8], message: &mut [u8]) -> Answered {
    answered(unsafe { adw_answer_from_seeds(MODE, M as u16, N as u16, L as u8, session.as_ptr(), session.len(),
        secret.as_ptr(), secret.len(), taken.as_ptr(), taken.len(), strings.as_ptr(), strings.len(),
        received.as_ptr(), received.len(), message.as_mut_ptr(), message.len()) })
}

#[rustfmt::skip]
fn open(session: &[u8], selections: &[u8], kept: &[u8], received: &[u8], opened: &mut [u8]) -> Answered {
    answered(unsafe { adw_open(MODE, M as u16, N as u16, L as u8, session.as_ptr(), session.len(),
        selections.as_ptr(), selections.len(), kept.as_ptr(), kept.len(), received.as_ptr(), received.len(),
        opened.as_mut_ptr(), opened.len()) })
}

/// Stands in for a random source, which the layer leaves to its callers: never use this for real seeds or secrets.
fn bytes(length: usize, from: usize) -> Vec<u8> {
    (0..length).map(|i| (from + 37 * i + i / 256) as u8).collect()
}

/// Base transfers are made elsewhere; here the supplier simply takes of each pair the seed that its secret names.
fn take(first: &[u8], second: &[u8], secret: &[u8]) -> Vec<u8> {
    let named = |i: usize| if secret[i / 8] >> (i % 8) & 1 == 0 { first } else { second };
    (0..K).flat_map(|i| named(i)[32 * i..][..32].to_vec()).collect()
}

fn main() {
    let names = ["barley", "millet", "teff"];
    let prices = [
        *b"  210.00", *b"  214.50", *b"  220.00", *b"  231.25", *b"  180.75", *b"  182.00", *b"  190.00", *b"  197.50",
        *b"  305.00", *b"  311.00", *b"  320.50", *b"  342.00",
    ];
    let selections = [2, 0, 3];

    // Before: seeds at the buyer, a secret and the seeds it names at the supplier, and a session number never used before.
    let (session, first, second, secret) = (bytes(12, 1), bytes(32 * K, 5), bytes(32 * K, 9), bytes(K / 8, 77));
    let taken = take(&first, &second, &secret);

    // The buyer prepares and sends the columns; the supplier answers and sends the answers; the buyer opens.
    let (mut columns, mut kept) = (vec![0; 27 + K * M.div_ceil(8)], vec![0; M * K / 8]);
    prepare(&session, &first, &second, &selections, &mut columns, &mut kept).expect("prepare");
    let mut answers = vec![0; 27 + M * N * L];
    answer(&session, &secret, &taken, prices.as_flattened(), &columns, &mut answers).expect("answer");
    let mut opened = vec![0; M * L];
    open(&session, &selections, &kept, &answers, &mut opened).expect("open");
    for (j, price) in opened.chunks_exact(L).enumerate() {
        println!("{}, grade {}:{}", names[j], selections[j], String::from_utf8_lossy(price));
        assert_eq!(price, prices[j * N + usize::from(selections[j])]);
    }

    // A message cut short on its way is refused, and nothing is written.
    let (code, place) = open(&session, &selections, &kept, &answers[..100], &mut opened).expect_err("a refusal");
    println!("cut short: refused {code} at {place}");
}
