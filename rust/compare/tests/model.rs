//! The model beside itself: every suite ends, finds no difference, and its own
//! assertions about the cases hold.

use compare::{suites, Compared, Model};

#[test]
fn the_model_does_not_differ_from_itself() {
    for (name, run) in suites::SUITES {
        let mut compared = Compared::new(&Model);
        let start = std::time::Instant::now();
        run(&mut compared).expect(name);
        println!(
            "{name}: {} calls compared, {:?}",
            compared.calls,
            start.elapsed()
        );
    }
}
