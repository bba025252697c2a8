//! A few lists of every kind on the library, the machine and, where its sources are at hand (UTTER_SRC), the original.
use compare::{gen, lists};

#[test]
fn no_difference() {
    std::panic::set_hook(Box::new(|_| ()));
    let mut t = lists::Tally::default();
    for seed in 1..=10 {
        for kind in gen::KINDS {
            lists::one(seed, kind, &mut t);
        }
    }
    let _ = std::panic::take_hook();
    t.print();
    assert!(t.lists > 0 && t.library > 0);
    assert_eq!(t.differences, 0);
}
