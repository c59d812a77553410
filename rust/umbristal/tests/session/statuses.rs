//! The status table of the crate against the numbers of the C face, which a test of `linked` holds against its header.

use umbristal::Status;

#[test]
fn every_status_of_the_face() {
    for &(name, number) in face::status::ALL {
        let status = Status::of_number(number).unwrap_or_else(|| panic!("{name} is there"));
        let letters = match status {
            Status::Blank => "--",
            _ => name,
        };
        assert_eq!((status.number(), status.letters()), (number, letters));
    }
}

#[test]
fn and_no_other() {
    let known = (0..=u8::MAX).filter_map(Status::of_number).count();
    assert_eq!(known, face::status::ALL.len());
}
