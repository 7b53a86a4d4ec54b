//! Composites, canonical mappings and combining classes.
use icu_normalizer_proved::properties::{
    CanonicalCombiningClassMap, CanonicalCombiningClassMapBorrowed, CanonicalComposition, CanonicalCompositionBorrowed,
    CanonicalDecomposition, CanonicalDecompositionBorrowed, Decomposed,
};
use icu_normalizer_proved::{unicode_version, Normalizers};

fn own_data() -> Vec<u8> {
    std::fs::read(concat!(env!("CARGO_MANIFEST_DIR"), "/../../data/unicode/prepared")).unwrap()
}

#[test]
fn composites() {
    let (given, own) = (
        CanonicalComposition::try_new_prepared(&own_data()).unwrap(),
        CanonicalComposition::default(),
    );
    for composition in [
        CanonicalCompositionBorrowed::new(),
        given.as_borrowed(),
        own.as_borrowed(),
    ] {
        assert_eq!(composition.compose('o', '\u{302}'), Some('\u{F4}'));
        assert_eq!(composition.compose('\u{F4}', '\u{301}'), Some('\u{1ED1}'));
        assert_eq!(composition.compose('\u{302}', 'o'), None);
        assert_eq!(composition.compose('\u{915}', '\u{93C}'), None);
        assert_eq!(composition.compose('\u{110BA}', '\u{11099}'), None);
        assert_eq!(composition.compose('\u{11099}', '\u{110BA}'), Some('\u{1109A}'));
        assert_eq!(composition.compose('\u{1112}', '\u{1175}'), Some('\u{D788}'));
        assert_eq!(composition.compose('\u{D788}', '\u{11C2}'), Some('\u{D7A3}'));
        assert_eq!(composition.compose('\u{D7A3}', '\u{11C2}'), None);
    }
}

#[test]
fn mappings() {
    let given = CanonicalDecomposition::try_new_prepared(&own_data()).unwrap();
    let own = CanonicalDecomposition::default();
    for decomposition in [
        CanonicalDecompositionBorrowed::new(),
        given.as_borrowed(),
        own.as_borrowed(),
    ] {
        assert_eq!(decomposition.decompose('o'), Decomposed::Default);
        assert_eq!(decomposition.decompose('\u{FB01}'), Decomposed::Default);
        assert_eq!(
            decomposition.decompose('\u{1ED1}'),
            Decomposed::Expansion('\u{F4}', '\u{301}')
        );
        assert_eq!(
            decomposition.decompose('\u{344}'),
            Decomposed::Expansion('\u{308}', '\u{301}')
        );
        assert_eq!(decomposition.decompose('\u{340}'), Decomposed::Singleton('\u{300}'));
        assert_eq!(decomposition.decompose('\u{2F800}'), Decomposed::Singleton('\u{4E3D}'));
        assert_eq!(
            decomposition.decompose('\u{D7A3}'),
            Decomposed::Expansion('\u{D788}', '\u{11C2}')
        );
        assert_eq!(
            decomposition.decompose('\u{D788}'),
            Decomposed::Expansion('\u{1112}', '\u{1175}')
        );
    }
}

#[test]
fn classes() {
    let given = CanonicalCombiningClassMap::try_new_prepared(&own_data()).unwrap();
    let own = CanonicalCombiningClassMap::default();
    for classes in [
        CanonicalCombiningClassMapBorrowed::new(),
        given.as_borrowed(),
        own.as_borrowed(),
    ] {
        let found =
            ['o', '\u{302}', '\u{323}', '\u{345}', '\u{94D}', '\u{3099}', '\u{AC00}'].map(|it| classes.get_u8(it));
        assert_eq!(found, [0, 230, 220, 240, 9, 8, 0]);
        assert_eq!(
            [0x302, 0xDFFF, 0x110000, u32::MAX].map(|it| classes.get32_u8(it)),
            [230, 0, 0, 0]
        );
    }
}

/// What a character decomposes to, by all steps, not ordered.
fn decomposed(decomposition: CanonicalDecompositionBorrowed, character: char, all: &mut Vec<char>) {
    match decomposition.decompose(character) {
        Decomposed::Default => all.push(character),
        Decomposed::Singleton(only) => decomposed(decomposition, only, all),
        Decomposed::Expansion(first, second) => {
            decomposed(decomposition, first, all);
            decomposed(decomposition, second, all);
        }
    }
}

#[test]
fn properties_agree_with_forms() {
    let normalizers = Normalizers::try_new_prepared(&own_data()).unwrap();
    let (composition, decomposition) = (normalizers.composition(), normalizers.decomposition());
    let classes = normalizers.combining_classes();
    for character in '\0'..=char::MAX {
        let text = character.to_string();
        let mut all = Vec::new();
        decomposed(decomposition, character, &mut all);
        all.sort_by_key(|it| classes.get_u8(*it));
        let form = normalizers.nfd().normalize(&text);
        assert!(
            all.len() == 1 || !all[1..].iter().any(|it| classes.get_u8(*it) == 0) || form.chars().eq(all),
            "{text:?}"
        );
        if let Decomposed::Expansion(first, second) = decomposition.decompose(character) {
            let composite = composition.compose(first, second);
            assert_eq!(
                composite == Some(character),
                normalizers.nfc().is_normalized(&text),
                "{text:?}"
            );
        }
    }
}

#[test]
fn the_version_of_unicode() {
    let folder = concat!(env!("CARGO_MANIFEST_DIR"), "/../../data/unicode");
    let exclusions = std::fs::read_to_string(format!("{folder}/CompositionExclusions.txt")).unwrap();
    let normalizers = Normalizers::try_new_prepared(&own_data()).unwrap();
    let [major, minor, update] = normalizers.unicode_version();
    let first_line = format!("# CompositionExclusions-{major}.{minor}.{update}.txt");
    assert_eq!(exclusions.lines().next(), Some(&first_line[..]));
    assert!(unicode_version()[0] >= 15);
}
