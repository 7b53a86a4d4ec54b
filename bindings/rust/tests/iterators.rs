//! Iterators over forms, and forms as methods of texts.
use icu_normalizer_proved::{ComposingNormalizerBorrowed, DecomposingNormalizerBorrowed, UnicodeNormalization};
use std::cell::Cell;

const NFC: ComposingNormalizerBorrowed = ComposingNormalizerBorrowed::new_nfc();
const NFD: DecomposingNormalizerBorrowed = DecomposingNormalizerBorrowed::new_nfd();
const NFKC: ComposingNormalizerBorrowed = ComposingNormalizerBorrowed::new_nfkc();
const NFKD: DecomposingNormalizerBorrowed = DecomposingNormalizerBorrowed::new_nfkd();

// Starters, marks of several classes, second characters of pairs that are starters, jamo, exclusions, long mappings.
const CHARACTERS: [char; 22] = [
    'a', 'o', '\u{C5}', '\u{1ED9}', '\u{212B}', '\u{301}', '\u{302}', '\u{323}', '\u{334}', '\u{344}', '\u{345}',
    '\u{F73}', '\u{958}', '\u{9C7}', '\u{9BE}', '\u{1100}', '\u{1161}', '\u{11A8}', '\u{AC00}', '\u{FB01}', '\u{FDFA}',
    '\u{FFFD}',
];

fn text_of(characters: impl Iterator<Item = char>) -> String {
    characters.collect()
}

#[test]
fn the_characters_are_those_of_the_form() {
    for first in CHARACTERS {
        for second in CHARACTERS {
            for third in CHARACTERS {
                let text = String::from_iter([first, second, third, 'x', third]);
                assert_eq!(text_of(NFC.normalize_iter(text.chars())), NFC.normalize(&text));
                assert_eq!(text_of(NFD.normalize_iter(text.chars())), NFD.normalize(&text));
                assert_eq!(text_of(NFKC.normalize_iter(text.chars())), NFKC.normalize(&text));
                assert_eq!(text_of(NFKD.normalize_iter(text.chars())), NFKD.normalize(&text));
            }
        }
    }
}

#[test]
fn no_more_is_read_than_a_piece() {
    let read = Cell::new(0);
    let endless = "u\u{308}xyz".chars().cycle();
    let mut form = NFC.normalize_iter(endless.inspect(|_| read.set(read.get() + 1)));
    let mut after = |count| (text_of(form.by_ref().take(count)), read.get());
    assert_eq!(after(0), (String::new(), 0));
    assert_eq!(after(1), ("\u{FC}".into(), 65));
    assert_eq!(after(50).1, 65);
    assert_eq!(after(3), ("z\u{FC}x".into(), 130));
}

#[test]
fn pieces_end_before_boundaries() {
    for length in 50..70 {
        for end in [
            "o\u{302}\u{323}p",
            "\u{1100}\u{1161}\u{11A8}p",
            "\u{AC00}\u{11A8}p",
            "\u{9C7}\u{9BE}p",
        ] {
            let text = format!("{}{end}", "x".repeat(length)).repeat(3);
            assert_eq!(text_of(NFC.normalize_iter(text.chars())), NFC.normalize(&text));
            assert_eq!(text_of(NFD.normalize_iter(text.chars())), NFD.normalize(&text));
        }
    }
}

#[test]
fn runs_of_marks_may_be_long() {
    let (above, below) = ("\u{301}".repeat(3000), "\u{323}".repeat(3000));
    let form: String = NFD.normalize_iter(format!("e{above}{below}x").chars()).collect();
    assert_eq!(form, format!("e{below}{above}x"));
}

#[test]
fn what_ended_is_not_read_again() {
    let mut answers = [Some('u'), None, Some('\u{308}')].into_iter();
    let mut form = NFC.normalize_iter(std::iter::from_fn(|| answers.next().flatten()));
    assert_eq!([form.next(), form.next(), form.next()], [Some('u'), None, None]);
    assert_eq!(answers.len(), 1);
}

#[test]
fn iterators_may_be_over_iterators_and_be_cloned() {
    let mut form = "\u{212B}\u{323}q".nfd().nfc();
    assert_eq!(form.next(), Some('\u{1EA0}'));
    let other = form.clone();
    assert_eq!(text_of(form), "\u{30A}q");
    assert_eq!(text_of(other), "\u{30A}q");
    let inner = "xyz"
        .chars()
        .map(|it| NFC.normalize("u\u{308}").chars().next().unwrap_or(it));
    assert_eq!(text_of(NFD.normalize_iter(inner)), "u\u{308}u\u{308}u\u{308}");
}

#[test]
fn texts_have_forms() {
    assert!("o\u{302}\u{323}".nfc().eq(['\u{1ED9}']));
    assert!("\u{1ED9}".nfd().eq("o\u{323}\u{302}".chars()));
    assert!("\u{2460}".nfkc().eq(['1']));
    assert!("\u{2460}".nfkd().eq(['1']));
    assert!('\u{1ED9}'.nfd().eq("o\u{323}\u{302}".chars()));
    assert!(['o', '\u{302}'].into_iter().nfc().eq(['\u{F4}']));
    assert!(String::from("\u{3A9}").nfc().eq(['\u{3A9}']));
    assert_eq!("".nfc().next(), None);
    assert_eq!("".nfc().compose('o', '\u{302}'), Some('\u{F4}'));
}
