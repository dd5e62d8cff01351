//! The lister's stored cases and the example.
use checked::{Refusal, check};
use std::collections::BTreeSet;
use std::fs;
use std::path::{Path, PathBuf};

fn repository() -> PathBuf {
    Path::new(env!("CARGO_MANIFEST_DIR")).join("../..")
}

fn tariff() -> Vec<u8> {
    fs::read(repository().join("examples/tariff.bundle")).expect("the example")
}

fn bytes(hex: &str) -> Vec<u8> {
    hex.split_whitespace().map(|two| u8::from_str_radix(two, 16).expect("two digits")).collect()
}

/// "refused 7 at 0", or a listing.
fn due(text: &str) -> Result<(), Refusal> {
    match text.strip_prefix("refused ") {
        None => Ok(()),
        Some(rest) => Err(Refusal::of(rest.split(' ').next().unwrap().parse().unwrap()).unwrap()),
    }
}

#[test]
fn the_listers_cases() {
    let mut met = BTreeSet::new();
    for entry in fs::read_dir(repository().join("crates/lister/cases")).expect("the cases") {
        let file = entry.unwrap().path();
        if file.extension().is_some_and(|x| x == "hex") {
            let wanted = due(&fs::read_to_string(file.with_extension("txt")).unwrap());
            assert_eq!(check(&bytes(&fs::read_to_string(&file).unwrap())), wanted, "{}", file.display());
            met.insert(wanted.err().map_or(0, Refusal::number));
        }
    }
    // every number that the check of a bundle can give
    assert_eq!(met, BTreeSet::from([0, 1, 2, 3, 4, 7, 8, 9]));
}

#[test]
fn the_tariff_passes() {
    assert_eq!(check(&tariff()), Ok(()));
}

#[test]
fn a_tariff_cut_short_is_bad() {
    let bundle = tariff();
    for end in 0..bundle.len() {
        assert_eq!(check(&bundle[..end]), Err(Refusal::of(1).unwrap()), "{end} bytes");
    }
}

/// Every byte changed to every other value: no answer but the check's numbers.
#[test]
fn a_changed_tariff_gets_one_of_the_checks_numbers() {
    let mut bundle = tariff();
    let mut met = BTreeSet::new();
    for at in 0..bundle.len() {
        let was = bundle[at];
        for now in 0..=255 {
            bundle[at] = now;
            met.insert(check(&bundle).err().map_or(0, Refusal::number));
        }
        bundle[at] = was;
    }
    assert!(met.is_subset(&BTreeSet::from([0, 1, 2, 3, 4, 7, 8, 9])), "{met:?}");
    assert_eq!(check(&bundle), Ok(()));
}

/// The lister stops at 65,536 bytes, the check does not.
#[test]
fn a_bundle_may_be_of_any_length() {
    let mut bundle = [b"SY".as_slice(), &[0; 4]].concat().repeat(100_000);
    bundle.extend(tariff());
    assert_eq!(check(&bundle), Ok(()));
}

/// The deepest nesting, on several threads at once, each with a stack of 1 MB.
#[test]
fn every_thread_may_check() {
    let bundle = bytes(&fs::read_to_string(repository().join("crates/lister/cases/nested_256.hex")).unwrap());
    std::thread::scope(|s| {
        for _ in 0..4 {
            let small = std::thread::Builder::new().stack_size(1 << 20);
            small.spawn_scoped(s, || (0..1000).for_each(|_| assert_eq!(check(&bundle), Ok(())))).unwrap();
        }
    });
}
