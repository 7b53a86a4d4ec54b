//! The mapper of Unicode Technical Standard #46, lazily.
use icu_normalizer_proved::uts46::{Uts46Mapper, Uts46MapperBorrowed};
use icu_normalizer_proved::{Error, Normalizers};
use std::cell::Cell;

fn read(name: &str) -> Vec<u8> {
    std::fs::read(format!("{}/../../{name}", env!("CARGO_MANIFEST_DIR"))).unwrap()
}

/// Data in which `A` and U+00C4 are mapped, U+0080 is disallowed, and U+00AD is ignored.
fn small() -> Vec<u8> {
    read("crates/icu_normalizer_c/examples/tests/small.prepared")
}

fn text(characters: impl Iterator<Item = char>) -> String {
    characters.collect()
}

#[test]
fn characters_are_mapped_as_texts_are() {
    const CHARACTERS: [char; 8] = ['A', 'a', '\u{C4}', '\u{308}', '\u{323}', '\u{80}', '\u{AD}', '\u{1EA1}'];
    let normalizers = Normalizers::try_new_prepared(&small()).unwrap();
    let mapper = normalizers.mapper().unwrap();
    for first in CHARACTERS {
        for second in CHARACTERS {
            for third in CHARACTERS {
                let given = String::from_iter([first, second, third, second]);
                assert_eq!(Some(text(mapper.map_normalize(given.chars()))), normalizers.map(&given));
                assert_eq!(
                    Some(text(mapper.normalize_validate(given.chars()))),
                    normalizers.validate(&given)
                );
            }
        }
    }
}

#[test]
fn owned_mappers() {
    let owned = Uts46Mapper::try_new_prepared(&small()).unwrap();
    let mapper = owned.as_borrowed();
    assert_eq!(
        text(mapper.map_normalize("A\u{308}\u{AD}\u{323}".chars())),
        "\u{1EA1}\u{308}"
    );
    assert_eq!(text(mapper.map_normalize("\u{80}\u{AD}".chars())), "\u{FFFD}");
    assert_eq!(
        text(mapper.normalize_validate("\u{80}\u{AD}".chars())),
        "\u{FFFD}\u{FFFD}"
    );
    assert_eq!(text(owned.clone().as_borrowed().map_normalize("".chars())), "");
    assert!(!mapper.is_virama('A') && !mapper.is_virama('\u{308}'));
}

#[test]
fn no_more_is_read_than_a_piece() {
    let owned = Uts46Mapper::try_new_prepared(&small()).unwrap();
    let (mapper, read) = (owned.as_borrowed(), Cell::new(0));
    let endless = std::iter::once('A')
        .chain(std::iter::repeat('\u{AD}').take(150))
        .chain("\u{308}xA".chars().cycle());
    let mut mapped = mapper.map_normalize(endless.inspect(|_| read.set(read.get() + 1)));
    assert_eq!((mapped.next(), read.get()), (Some('\u{E4}'), 256));
    assert_eq!((mapped.next(), read.get()), (Some('x'), 256));
}

#[test]
fn data_may_be_without_a_mapper() {
    let read = |name: &str| read(&format!("data/unicode/{name}"));
    let (unicode_data, exclusions) = (read("UnicodeData.txt"), read("CompositionExclusions.txt"));
    let normalizers = Normalizers::try_new(&unicode_data, &exclusions).unwrap();
    assert!(normalizers.mapper().is_none());
    assert_eq!(Error::NoMapper.to_string(), "the data have no mapper");
    assert!(matches!(
        Uts46Mapper::try_new_prepared(b"x"),
        Err(Error::Prepared { .. })
    ));
}

#[test]
fn the_data_of_this_crate_have_a_mapper() {
    let given = Uts46Mapper::try_new_prepared(&read("data/unicode/prepared")).unwrap();
    let own = Uts46Mapper::default();
    for mapper in [Uts46MapperBorrowed::new(), given.as_borrowed(), own.as_borrowed()] {
        let given = "Stra\u{DF}e\u{3002}\u{FF21}\u{AD}U\u{308}\u{202A}";
        assert_eq!(text(mapper.map_normalize(given.chars())), "stra\u{DF}e.a\u{FC}\u{FFFD}");
        assert_eq!(text(mapper.normalize_validate("x\u{AD}".chars())), "x\u{FFFD}");
        assert!(mapper.is_virama('\u{94D}') && !mapper.is_virama('\u{93C}') && !mapper.is_virama('V'));
    }
}

#[test]
fn mappers_may_be_shared() {
    fn may<T: Send + Sync>() {}
    may::<Uts46Mapper>();
    may::<Uts46MapperBorrowed<'static>>();
    assert!(format!("{:?}", Uts46MapperBorrowed::new()).starts_with("Uts46MapperBorrowed"));
}
