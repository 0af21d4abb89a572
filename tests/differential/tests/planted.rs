//! Every planted fault is found, and what it is shown on is smaller than the sheet that showed it.

use differential::planted::{Planted, FAULTS};
use differential::run::{compare, Counts};

#[test]
fn every_planted_fault_is_found() {
    for fault in FAULTS {
        let build = Planted { fault: fault.to_string() };
        let counts = Counts::default();
        let found = (0..5_000).find_map(|index| compare(&build, 2026, index, &counts));
        let found = found.unwrap_or_else(|| panic!("{fault} is not found"));
        assert!(found.small.len() < found.bytes, "{fault}");
        println!("{fault}: sheet {}, {} of {} bytes", found.index, found.small.len(), found.bytes);
    }
}
