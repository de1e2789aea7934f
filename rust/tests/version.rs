//! The crate, the archive and the header are of one version.

use adtg::{Version, PLAN_LAYOUT, VERSION};

const HEADER: &str = include_str!("../../include/adtg.h");

/// The number that the header defines under a name.
fn defined(name: &str) -> u32 {
    let define = format!("#define {name} ");
    let value = HEADER.lines().find_map(|line| line.strip_prefix(&define));
    let value = value.unwrap_or_else(|| panic!("the header does not define {name}"));
    value
        .trim()
        .parse()
        .unwrap_or_else(|_| panic!("{name} is {value}"))
}

#[test]
fn the_header_has_the_version_of_the_crate() {
    assert_eq!(defined("ADTG_VERSION"), VERSION);
    assert_eq!(defined("ADTG_PLAN_LAYOUT"), PLAN_LAYOUT);
}

#[test]
fn the_package_has_the_version_of_the_crate() {
    let part = |text: &str| -> u32 { text.parse().expect("a version is made of numbers") };
    let major = part(env!("CARGO_PKG_VERSION_MAJOR"));
    let minor = part(env!("CARGO_PKG_VERSION_MINOR"));
    let patch = part(env!("CARGO_PKG_VERSION_PATCH"));
    assert_eq!(10_000 * major + 100 * minor + patch, VERSION);
}

#[test]
fn the_archive_has_the_version_of_the_crate() {
    assert_eq!(adtg::version(), Version::OWN);
}
