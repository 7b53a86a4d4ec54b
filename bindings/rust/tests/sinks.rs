//! Sinks get forms piece by piece.
use icu_normalizer_proved::{ComposingNormalizerBorrowed, DecomposingNormalizerBorrowed, Write16};
use std::fmt;

const NFC: ComposingNormalizerBorrowed = ComposingNormalizerBorrowed::new_nfc();
const NFKD: DecomposingNormalizerBorrowed = DecomposingNormalizerBorrowed::new_nfkd();

/// The pieces that a sink took, before it refuses.
struct Pieces<T> {
    taken: Vec<T>,
    left: usize,
    hints: Vec<usize>,
}

impl<T> Pieces<T> {
    fn at_most(left: usize) -> Self {
        Pieces {
            taken: Vec::new(),
            left,
            hints: Vec::new(),
        }
    }

    fn take(&mut self, piece: T) -> fmt::Result {
        self.left = self.left.checked_sub(1).ok_or(fmt::Error)?;
        self.taken.push(piece);
        Ok(())
    }
}

impl fmt::Write for Pieces<String> {
    fn write_str(&mut self, text: &str) -> fmt::Result {
        self.take(text.into())
    }
}

impl Write16 for Pieces<Vec<u16>> {
    fn write_slice(&mut self, units: &[u16]) -> fmt::Result {
        self.take(units.into())
    }

    fn size_hint(&mut self, units: usize) -> fmt::Result {
        self.hints.push(units);
        Ok(())
    }
}

#[test]
fn a_long_text_comes_in_many_pieces() {
    for part in [
        "a\u{308}bc",
        "\u{E4}bc",
        "\u{FB01}x",
        "\u{10400}",
        "\u{1D15E}a",
        "\u{323}\u{301}\u{302}x",
    ] {
        let text = part.repeat(20_000);
        let (form, mut sink) = (NFC.normalize(&text), Pieces::at_most(usize::MAX));
        NFC.normalize_to(&text, &mut sink).unwrap();
        assert!(sink.taken.len() >= text.len() / 5000 && sink.taken.iter().all(|it| it.len() < 10_000));
        assert!(sink.taken.concat() == form && sink.taken.iter().all(|it| !it.is_empty()));
        let units: Vec<u16> = text.encode_utf16().collect();
        let mut sink = Pieces::at_most(usize::MAX);
        NFC.normalize_utf16_to(&units, &mut sink).unwrap();
        assert!(sink.taken.len() >= units.len() / 5000 && sink.taken.iter().all(|it| it.len() < 10_000));
        assert!(sink.taken.concat().into_iter().eq(form.encode_utf16()));
        assert_eq!(sink.hints, [units.len()]);
    }
}

#[test]
fn nothing_comes_of_nothing() {
    let mut sink = Pieces::<String>::at_most(0);
    NFC.normalize_to("", &mut sink).unwrap();
    NFC.normalize_utf8_to(b"", &mut sink).unwrap();
    NFC.normalize_utf16_to(&[], &mut Pieces::at_most(0)).unwrap();
}

#[test]
fn after_a_refusal_nothing_comes() {
    let text = "e\u{301}xyz".repeat(5000);
    let form = NFC.normalize(&text);
    for most in [0, 1, 2, 5] {
        let mut sink = Pieces::at_most(most);
        NFC.normalize_utf8_to(text.as_bytes(), &mut sink).unwrap_err();
        assert!(sink.taken.len() == most && form.starts_with(&sink.taken.concat()));
    }
}

/// What is wrong, or is divided, near the end of a piece.
const NEAR_AN_END: [&[u8]; 12] = [
    b"\xFF",
    b"\x80\x80",
    b"\xE2\x98",
    b"\xF0\x9F\x98",
    b"\xED\xA0\x80",
    b"e\xCC\x81",
    b"\xCC\x81\xCC\xA3",
    b"\xC3\xA9",
    b"\xEF\xAC\x81",
    b"\xF0\x90\x90\x80",
    b"\xE1\x84\x80\xE1\x85\xA1\xE1\x86\xA8",
    b"\xEF\xB7\xBA",
];

#[test]
fn pieces_end_where_the_form_may_be_divided() {
    for place in 4088..4100 {
        for (first, second) in NEAR_AN_END.iter().flat_map(|it| NEAR_AN_END.map(|other| (it, other))) {
            let bytes = [&b"x".repeat(place), *first, second, b"\xCC\x81yz"].concat();
            let (mut nfc, mut nfkd) = (String::new(), String::new());
            NFC.normalize_utf8_to(&bytes, &mut nfc).unwrap();
            NFKD.normalize_utf8_to(&bytes, &mut nfkd).unwrap();
            assert!(
                nfc == NFC.normalize_utf8(&bytes) && nfkd == NFKD.normalize_utf8(&bytes),
                "{first:?} {second:?}"
            );
        }
    }
}

#[test]
fn pieces_of_16_bit_units_end_there_too() {
    let near = [
        &[0xD800][..],
        &[0xDC00],
        &[0xD801, 0xDC00],
        &[0x65, 0x301],
        &[0x301, 0x323],
        &[0xDC00, 0xD801],
    ];
    for place in 4090..4099 {
        for (first, second) in near.iter().flat_map(|it| near.map(|other| (it, other))) {
            let units = [&[0x78].repeat(place), *first, second, &[0x301, 0x79]].concat();
            let mut nfc = Vec::new();
            NFC.normalize_utf16_to(&units, &mut nfc).unwrap();
            assert_eq!(nfc, *NFC.normalize_utf16(&units));
        }
    }
}

#[test]
fn a_sink_may_normalize() {
    struct Normalizing(String);
    impl fmt::Write for Normalizing {
        fn write_str(&mut self, text: &str) -> fmt::Result {
            NFKD.normalize_to(text, &mut self.0)
        }
    }
    let mut sink = Normalizing(String::new());
    NFC.normalize_to("a\u{308}\u{FB01}", &mut sink as &mut dyn fmt::Write)
        .unwrap();
    assert_eq!(sink.0, "a\u{308}fi");
}

#[test]
fn sinks_of_units_take_characters() {
    let mut units = Vec::new();
    units.write_char('a').unwrap();
    units.write_char('\u{10400}').unwrap();
    assert_eq!(units, [0x61, 0xD801, 0xDC00]);
}
