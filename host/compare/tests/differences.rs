//! Each listed difference, shown by its smallest input.

use compare::differences::Difference;
use compare::run::{Verdict, judge};
use compare::smallest::smallest;

#[test]
fn the_smallest_inputs_show_the_listed_differences() {
    if oracle::skipped("the listed differences") {
        return;
    }
    for small in smallest() {
        let judged = judge(&small.store, &small.call, &oracle::run);
        assert_eq!(judged.verdict, Verdict::Listed(small.difference));
        assert_eq!(judged.answer.number, small.number);
        assert_eq!(judged.told.outcome, small.rust);
        assert_eq!(judged.told.output, small.output);
        assert_eq!(judged.answer.output, small.call.blank_output());
        assert_eq!(judged.after, small.store, "a refused call changes nothing");
    }
    for difference in Difference::ALL {
        assert!(smallest().iter().any(|s| s.difference == difference));
    }
}
