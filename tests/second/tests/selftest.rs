//! The second program's own checks, as a test.

#[test]
fn every_check_holds() {
    let none: Vec<String> = Vec::new();
    assert_eq!(second::selftest::failures(), none);
}
