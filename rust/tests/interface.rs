//! The interface's number in the archive and in the version.

extern "C" {
    fn tevrolig_interface_10() -> u32;
}

#[test]
fn the_archive_has_the_second_number_of_the_version() {
    // It takes nothing.
    let number = unsafe { tevrolig_interface_10() }.to_string();
    assert_eq!(tevrolig::VERSION.split('.').nth(1), Some(number.as_str()));
}
