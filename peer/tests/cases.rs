//! What the generated cases cover, and that the files about them are up to date.

use std::collections::BTreeSet;

use peer::case::{run, Case, Outcome, Ran, COLUMNS, OLD, OPEN, OWN, SELECTIONS};
use peer::expected::{case_groups, case_lines, case_table};
use peer::table::cases;
use peer::verdict::SUCCESS;

fn outcomes() -> Vec<(Case, Outcome)> {
    let numbered = cases().into_iter().enumerate();
    numbered.map(|(number, case)| (case, run(number as u32, &case, &OWN))).collect()
}

#[test]
fn table_and_groups_are_up_to_date() {
    assert_eq!(case_table(), include_str!("../cases.txt"), "write cases.txt anew: peer case-table");
    let (groups, lines) = (case_groups(), case_lines());
    for line in groups.lines().chain(lines.lines().take(1)) {
        assert!(include_str!("../CASES.md").contains(line), "CASES.md lacks: {line}");
    }
}

// What CASES.md says of every row.
#[test]
fn rows_are_well_formed() {
    for (number, case) in cases().iter().enumerate() {
        assert_eq!(case.shape.check(), Ok(()), "case {number}");
        let [one, other] = case.lengths;
        assert!(one.at == 0 || one.at != other.at, "case {number}");
        for at in case.pokes.map(|poke| poke.at).into_iter().chain([one.at, other.at]) {
            assert!(
                at == 0 || (1..=3).contains(&(at / 16)) && (1..=11).contains(&(at % 16)),
                "case {number}"
            );
        }
    }
}

/// One of the three calls of an outcome.
type Call = fn(&Outcome) -> &Ran;

/// The places at which a call gives a code, over all cases.
fn places(outcomes: &[(Case, Outcome)], call: Call, code: u8) -> BTreeSet<usize> {
    let verdicts = outcomes.iter().map(|(_, outcome)| call(outcome).verdict);
    verdicts.filter(|verdict| verdict.code == code).map(|verdict| verdict.place).collect()
}

// Each refusal of each call, at several places where it has more than one.
#[test]
fn every_refusal_occurs() {
    let outcomes = outcomes();
    let seen = |call, code| places(&outcomes, call, code);
    let [prepare, answer, open]: [Call; 3] = [|ran| &ran.prepare, |ran| &ran.answer, |ran| &ran.open];
    for call in [prepare, answer, open] {
        for code in 0..=5 {
            assert_eq!(seen(call, code), BTreeSet::from([0]), "refusal {code}");
        }
    }
    assert_eq!([prepare, answer, open].map(|call| seen(call, 6).len()), [4, 4, 3]);
    assert_eq!([prepare, answer, open].map(|call| seen(call, 7).len()), [2, 1, 1]);
    for call in [prepare, open] {
        assert!(seen(call, 8).len() >= 5);
    }
    assert!(seen(prepare, 9).is_superset(&BTreeSet::from([0, 61, 127, 128, 189, 255, 256, 381, 511])));
    assert!(seen(answer, 9).is_superset(&BTreeSet::from([0, 61, 127, 125, 255])));
    for call in [answer, open] {
        assert!(seen(call, 10).is_superset(&BTreeSet::from([0, 9, 24])) && seen(call, 10).len() >= 5);
        assert_eq!(seen(call, 11), (0..6).collect());
        assert_eq!(seen(call, 12), (0..12).collect());
    }
    assert!(seen(answer, 13).is_superset(&BTreeSet::from([0, 61, 127, 125, 255])));
    for (call, never) in [(prepare, &[10, 11, 12, 13][..]), (answer, &[8]), (open, &[9, 13])] {
        assert!(never.iter().all(|code| seen(call, *code).is_empty()));
    }
}

// Section 7: on any refusal every output buffer holds its old bytes.
#[test]
fn refusals_leave_outputs_as_they_were() {
    for (number, (case, outcome)) in outcomes().into_iter().enumerate() {
        let buffers = outcome.buffers;
        let poked = |buffer| case.pokes.iter().any(|poke| poke.at % 16 == buffer);
        for (call, buffer, bytes) in [
            (&outcome.prepare, peer::case::MESSAGE, &buffers.message),
            (&outcome.prepare, peer::case::KEPT, &buffers.kept),
            (&outcome.answer, peer::case::ANSWERED, &buffers.answered),
            (&outcome.open, peer::case::OPENED, &buffers.opened),
        ] {
            let old = bytes.iter().all(|byte| *byte == OLD);
            assert!(poked(buffer) || old == (call.verdict != SUCCESS), "case {number}, buffer {buffer}");
        }
    }
}

// Demand 2, as far as running shows it: an undisturbed exchange opens the selected strings.
#[test]
fn plain_cases_open_what_was_selected() {
    let mut plain = 0;
    for (number, (case, outcome)) in outcomes().into_iter().enumerate() {
        if case != Case::plain(case.shape, case.form).secret(case.secret) {
            continue;
        }
        plain += 1;
        assert_eq!([&outcome.prepare, &outcome.answer, &outcome.open].map(|ran| ran.verdict), [SUCCESS; 3]);
        let (n, l, buffers) = (case.shape.n(), case.shape.l(), outcome.buffers);
        for j in 0..case.shape.m() {
            let place = j * n + usize::from(buffers.selections[j]);
            assert_eq!(
                buffers.opened[j * l..][..l],
                buffers.strings[place * l..][..l],
                "case {number}, row {j}"
            );
        }
    }
    assert!(plain >= 200);
}

/// The blocks that SHA-256 takes for so many bytes.
fn blocks(length: usize) -> usize {
    (length + 9).div_ceil(64)
}

// The proved program may have to run all cases in an emulator: keep the work in bounds.
#[test]
fn work_is_moderate() {
    let mut hashed = 0;
    for (case, outcome) in outcomes() {
        let shape = case.shape;
        hashed += if outcome.answer.verdict == SUCCESS { shape.m() * shape.n() } else { 0 };
        hashed += if outcome.open.verdict == SUCCESS { shape.m() } else { 0 };
        let digested = [shape.columns(), shape.kept(), shape.strings(), shape.opened()];
        hashed += digested.map(|length| blocks(27 + length)).iter().sum::<usize>() + 4;
    }
    println!("{hashed} blocks hashed");
    assert!(hashed < 400_000, "{hashed}");
}

// Section 9, 'Run only': a supplier with 41 places that receives 40 gets 11 at byte 4.
#[test]
fn forty_one_places_and_forty() {
    let found = outcomes().into_iter().find(|(case, _)| {
        (case.shape.places, case.other.places, case.calls, case.form) == (40, 41, 2, COLUMNS)
    });
    let verdict = found.expect("the case stands in the table").1.answer.verdict;
    assert_eq!((verdict.code, verdict.place), (11, 4));
}

// Section 9, 'Run only': selection n - 1 passes, n gets 8.
#[test]
fn selection_at_the_limit() {
    for places in [2u16, 3, 40, 255] {
        let shape = peer::Shape { mode: 2, rows: 12, places, bytes: 1 };
        let plain = Case::plain(shape, COLUMNS);
        let most = run(5, &plain.poke(OPEN, SELECTIONS, 11, places - 1), &OWN);
        assert_eq!(most.open.verdict, SUCCESS);
        let above = run(5, &plain.poke(OPEN, SELECTIONS, 11, places), &OWN).open.verdict;
        assert_eq!((above.code, above.place), (8, 11));
    }
}
