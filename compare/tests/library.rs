//! The library, linked or served, on a small seeded run and on the shapes that are timed.

use compare::bench::{timed, Timed};
use compare::boundary;
use compare::judge::judge;
use compare::run::run;

#[test]
fn a_seeded_run() {
    for op in boundary::operations() {
        let mut told = String::new();
        let count = run(&boundary::call, op, 400, 2024, &mut |text| told.push_str(text));
        assert_eq!(count.differences, 0, "{told}");
    }
}

#[test]
fn what_is_timed() {
    for op in boundary::operations() {
        for Timed { shape, case } in timed(op) {
            if let Err(difference) = judge(&boundary::call, &case, &[]) {
                panic!("{shape}: {difference}");
            }
        }
    }
}
