//! Calls whose results are known from outside.
use icu_normalizer_proved::{
    reason, version, ComposingNormalizer, ComposingNormalizerBorrowed, DecomposingNormalizer,
    DecomposingNormalizerBorrowed, Error, Mismatch, Normalizers,
};
use std::borrow::Cow;
use std::cell::Cell;
use std::sync::mpsc;
use std::thread;

const NFC: ComposingNormalizerBorrowed = ComposingNormalizerBorrowed::new_nfc();
const NFD: DecomposingNormalizerBorrowed = DecomposingNormalizerBorrowed::new_nfd();

fn read(folder: &str, name: &str) -> Vec<u8> {
    std::fs::read(format!("{}/../../{folder}/{name}", env!("CARGO_MANIFEST_DIR"))).unwrap()
}

fn of_files() -> Normalizers {
    let folder = "data/unicode";
    Normalizers::try_new(
        &read(folder, "UnicodeData.txt"),
        &read(folder, "CompositionExclusions.txt"),
    )
    .unwrap()
}

#[test]
fn mapping() {
    let read = |name| read("crates/uninorm/data", name);
    let (unicode_data, exclusions) = (read("UnicodeData.txt"), read("CompositionExclusions.txt"));
    let table = read("IdnaMappingTable.txt");
    let small = Normalizers::try_new_with_mapper(&unicode_data, &exclusions, &table, 0x110000).unwrap();
    assert_eq!(small.map("A\u{308}\u{AD}\u{323}").unwrap(), "\u{1EA1}\u{308}");
    assert_eq!(small.clone().validate("\u{1EA1}").unwrap(), "\u{1EA1}");
    assert_eq!(small.validate("\u{AD}").unwrap(), "\u{FFFD}");
    assert_eq!(of_files().map("A"), None);
}

#[test]
fn forms() {
    assert_eq!(version(), [1, 0, 0]);
    assert!(matches!(NFC.normalize("abc"), Cow::Borrowed("abc")));
    assert!(matches!(NFC.normalize(""), Cow::Borrowed("")));
    assert_eq!(NFC.normalize("a\u{308}"), "\u{E4}");
    assert_eq!(NFD.normalize("\u{1EC7}"), "e\u{323}\u{302}");
    assert_eq!(ComposingNormalizerBorrowed::new_nfkc().normalize("\u{FB01}"), "fi");
    assert_eq!(NFC.normalize_utf8(b"a\xFFb"), "a\u{FFFD}b");
    assert_eq!(NFC.normalize_utf16(&[0x61, 0x308, 0xD800]).as_ref(), [0xE4, 0xFFFD]);
    assert!(matches!(NFC.normalize_utf16(&[0x61]), Cow::Borrowed(_)));
    assert_eq!(
        NFD.normalize(&"\u{390}".repeat(5000)),
        "\u{3B9}\u{308}\u{301}".repeat(5000)
    );
    assert!(
        NFC.is_normalized("\u{E4}") && !NFC.is_normalized_utf8(b"\xFF") && !NFC.is_normalized_utf16(&[0x61, 0x308])
    );
    assert_eq!(NFC.split_normalized_utf8(b"xy\xFF"), ("xy", &b"\xFF"[..]));
    assert_eq!(
        NFC.split_normalized_utf16(&[0x78, 0x61, 0x308]),
        (&[0x78][..], &[0x61, 0x308][..])
    );
    let mismatch = Mismatch {
        offset: 1,
        found: 'a',
        expected: '\u{E4}',
    };
    assert_eq!(NFC.first_mismatch("xa\u{308}"), Some(mismatch));
    assert_eq!(NFC.first_mismatch("x"), None);
    let mut form = String::new();
    NFC.normalize_to("a\u{308}", &mut form).unwrap();
    assert_eq!(form, "\u{E4}");
}

#[test]
fn prepared_data() {
    let file = read("crates/icu_normalizer_c/examples/tests", "small.prepared");
    let small = Normalizers::try_new_prepared(&file).unwrap();
    assert_eq!(small.map("A\u{308}\u{AD}\u{323}").unwrap(), "\u{1EA1}\u{308}");
    assert_eq!(small.nfc().normalize("a\u{323}"), "\u{1EA1}");
    let error = Normalizers::try_new_prepared(&file[1..]).err().unwrap();
    assert!(error.to_string().starts_with("byte 0: "), "{error}");
}

#[test]
fn wrong_data_are_refused() {
    let error = Normalizers::try_new(b"0041;A\n# EOF\n", b"# EOF\n").unwrap_err();
    assert_eq!(error.to_string(), "UnicodeData.txt:1: the line has too few fields");
    let (file, line, reason) = ("UnicodeData.txt", 1, reason::TOO_FEW_FIELDS);
    assert_eq!(error, Error::Line { file, line, reason });
    let data = b"0041;;;0;;;;;;;;;;;\n\n0040;;;0;;;;;;;;;;;\n# EOF\n";
    let error = Normalizers::try_new(data, b"# EOF\n").unwrap_err();
    assert_eq!(
        error.to_string(),
        "UnicodeData.txt:3: the code points don't strictly rise"
    );
    let read = |name| read("data/unicode", name);
    let (unicode_data, exclusions) = (read("UnicodeData.txt"), read("CompositionExclusions.txt"));
    let table = b"0000..0040 ; valid\n0041 ; mapped ; 0061\n0042..10FFFF ; valid\n";
    let error = Normalizers::try_new_with_mapper(&unicode_data, &exclusions, table, 0).unwrap_err();
    let expected = "IdnaMappingTable.txt:3: U+00C0: the data break a written condition, number 8";
    assert_eq!(error.to_string(), expected);
}

#[test]
fn reasons_are_those_of_the_header() {
    let header = String::from_utf8(read("crates/icu_normalizer_c/include", "icu_normalizer.h")).unwrap();
    let (_, reasons) = header.split_once("icu_normalizer_reason_text(").unwrap();
    let (reasons, _) = reasons.split_once("\n}").unwrap();
    let mut count = 0;
    for line in reasons.lines().filter_map(|it| it.trim().strip_prefix("case ")) {
        let (number, text) = line.split_once(": return ").unwrap();
        // Reason 9 is that of a record, which this crate doesn't pass.
        if number != "9" {
            assert_eq!(format!("\"{}\";", reason::text(number.parse().unwrap())), text);
            count += 1;
        }
    }
    assert_eq!(
        count,
        (0..100)
            .filter(|it| reason::text(*it) != reason::text(u32::MAX))
            .count()
    );
}

#[test]
fn a_thread_may_normalize_at_its_end() {
    struct AtTheEnd(mpsc::Sender<String>);
    impl Drop for AtTheEnd {
        fn drop(&mut self) {
            self.0.send(NFC.normalize("u\u{308}").into_owned()).unwrap();
        }
    }
    thread_local! {
        static LAST: Cell<Option<AtTheEnd>> = const { Cell::new(None) };
    }
    let (sender, receiver) = mpsc::channel();
    for is_first in [false, true] {
        let last = AtTheEnd(sender.clone());
        thread::spawn(move || {
            if is_first {
                NFC.normalize("u\u{308}");
            }
            LAST.with(|it| it.set(Some(last)));
            NFC.normalize("u\u{308}");
        })
        .join()
        .unwrap();
        assert_eq!(receiver.recv().unwrap(), "\u{FC}");
    }
}

#[test]
fn threads_share_data() {
    fn crosses<T: Send + Sync>() {}
    crosses::<Normalizers>();
    crosses::<ComposingNormalizerBorrowed<'static>>();
    let normalizers = of_files();
    thread::scope(|scope| {
        for _ in 0..16 {
            let (own, lent) = (normalizers.clone(), &normalizers);
            scope.spawn(move || {
                for _ in 0..2000 {
                    assert_eq!(own.nfd().normalize("\u{E4}"), "a\u{308}");
                    assert_eq!(lent.nfc().normalize("a\u{308}"), "\u{E4}");
                    assert_eq!(NFC.normalize("a\u{308}"), "\u{E4}");
                }
            });
        }
    });
}

#[test]
fn owned_normalizers() {
    let data = read("data/unicode", "prepared");
    let nfc = ComposingNormalizer::try_new_nfc_prepared(&data).unwrap();
    let nfkc = ComposingNormalizer::try_new_nfkc_prepared(&data).unwrap();
    let nfd = DecomposingNormalizer::try_new_nfd_prepared(&data).unwrap();
    let nfkd = DecomposingNormalizer::try_new_nfkd_prepared(&data).unwrap();
    let own = ComposingNormalizer::new_nfkc().static_to_owned();
    assert_eq!(nfc.as_borrowed().normalize("o\u{302}\u{FB01}"), "\u{F4}\u{FB01}");
    assert_eq!(nfkc.as_borrowed().normalize("o\u{302}\u{FB01}"), "\u{F4}fi");
    assert_eq!(own.clone().as_borrowed().normalize("o\u{302}\u{FB01}"), "\u{F4}fi");
    assert_eq!(nfd.as_borrowed().normalize("\u{F4}\u{FB01}"), "o\u{302}\u{FB01}");
    assert_eq!(nfkd.clone().as_borrowed().normalize("\u{F4}\u{FB01}"), "o\u{302}fi");
    assert_eq!(DecomposingNormalizer::new_nfd().normalize("\u{F4}"), "o\u{302}");
    assert!(format!("{nfc:?}").starts_with("ComposingNormalizer"));
    assert!(ComposingNormalizer::try_new_nfc_prepared(b"").is_err());
}
