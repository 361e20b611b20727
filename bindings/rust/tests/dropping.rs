//! Whether a service that is dropped is freed. The test stands alone in its process, since others
//! beside it would take memory meanwhile.
#![forbid(unsafe_code)]

use iox2sd::dynamic_config::{event, DynamicConfig};

/// How many pages of memory the process has.
fn pages() -> usize {
    let text = std::fs::read_to_string("/proc/self/statm").unwrap();
    text.split(' ').next().unwrap().parse().unwrap()
}

/// A service with a capacity of 100,000 nodes.
fn service() -> DynamicConfig {
    let capacities = event::DynamicConfigSettings {
        number_of_listeners: 1,
        number_of_notifiers: 1,
    };
    DynamicConfig::new(capacities, 100_000, 7).unwrap()
}

#[test]
fn a_service_that_is_dropped_is_freed() {
    let before = pages();
    let kept = service();
    let of_one = pages() - before;
    assert!(of_one > 100, "{of_one}");
    drop(kept);
    for _ in 0..100 {
        drop(service());
    }
    assert!(pages() < before + 20 * of_one, "{before} and {}", pages());
}
