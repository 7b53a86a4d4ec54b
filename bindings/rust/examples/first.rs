//! Writes the NFC of each word.
use icu_normalizer_proved::ComposingNormalizerBorrowed;

fn main() {
    let nfc = ComposingNormalizerBorrowed::new_nfc();
    for word in std::env::args().skip(1) {
        println!("{}", nfc.normalize(&word));
    }
}
