//! Published vectors, every line of them.

use second::vectors;

const PUBLISHED: &str = include_str!("data/ranges-001-002.txt");

#[test]
fn every_published_vector_agrees() {
    let outcome = vectors::run(PUBLISHED);
    assert_eq!(outcome.differing, Vec::<String>::new());
    let lines = PUBLISHED.lines().filter(|line| !line.starts_with('#'));
    assert_eq!(outcome.agreed, lines.count());
    assert_eq!(outcome.agreed, 59);
}

/// A run that finds nothing wrong means something only if a wrong line is found.
#[test]
fn a_changed_vector_is_reported() {
    let wrong = PUBLISHED.replacen("2 o 3 o | =", "2 c 3 o | =", 1);
    assert_ne!(wrong, PUBLISHED);
    let outcome = vectors::run(&wrong);
    assert_eq!((outcome.agreed, outcome.differing.len()), (58, 1));
    let outcome = vectors::run("no vector at all\n");
    assert_eq!((outcome.agreed, outcome.differing.len()), (0, 1));
}
