//! What is wrong with data.
use crate::ffi;
use std::fmt;

/// Defines the reasons, each by its number, its name and its words.
macro_rules! reasons {
    ($($number:literal $name:ident $words:literal)*) => {
        /// The reasons for which data are wrong.
        pub mod reason {
            $(
                #[doc = concat!("The reason: ", $words, ".")]
                pub const $name: u32 = $number;
            )*

            /// Returns what a reason means, in English.
            pub const fn text(reason: u32) -> &'static str {
                match reason {
                    $($number => $words,)*
                    _ => "no reason has this number",
                }
            }
        }
    };
}

reasons! {
    1 TOO_FEW_FIELDS "the line has too few fields"
    2 WRONG_CODE_POINT "the code point is not a hexadecimal number up to 10FFFF"
    3 WRONG_COMBINING_CLASS "the canonical combining class is not a number from 0 to 254"
    4 WRONG_MAPPING "the mapping is not a list of characters"
    5 WRONG_STATUS "the status is not one of Unicode Technical Standard #46"
    6 LINES_DO_NOT_RISE "the code points don't strictly rise"
    7 OPEN_RANGE "a range of code points is not closed"
    8 NOT_ONE_CHARACTER "a class or a mapping of what is not one character"
    10 RECORDS_DO_NOT_RISE "the records don't strictly rise by character"
    11 RECORD_OF_FIXED_CHARACTER "a record of U+FFFD, a conjoining jamo or a Hangul syllable"
    12 CLASS_OF_LIST "a class of 255, or a list that begins with a mark"
    13 LENGTH_OF_MAPPING "a mapping of a wrong length or with a character that it may not have"
    14 LONG_CHAIN "more than 16 records lead from one to the next"
    15 LONG_LIST "a list is too long"
    16 SAME_PAIR "two records give the same pair"
    17 BROKEN_CONDITION "the data break a written condition"
    18 FULL_TABLES "the lists have more items than the tables hold"
    19 NO_LAST_LINE_FEED "the last line has no line feed: the file is cut off"
    20 MISSING_MAPPING "UnicodeData.txt has no canonical mapping of the character"
    21 NO_END_MARK "the file has no end mark: it is cut off"
    22 MISSING_CODE_POINTS "code points before this line are missing"
    23 EARLY_END "the file ends before U+10FFFF"
    24 OTHER_VERSION_OF_UNICODE "the files state different versions of Unicode"
    25 NOT_PREPARED_DATA "it isn't a file of prepared data"
    26 OTHER_VERSION_OF_FORMAT "the format is of another version"
    27 OTHER_LENGTH "the file has another length"
    28 OTHER_SUM "a sum of the bytes is another"
    29 CUT_OFF "the file is cut off"
    31 WRONG_RUNS "the runs of a table aren't those of all code points"
    32 WRONG_CHARACTER "a number isn't that of a character"
    33 MORE_BYTES "there are more bytes"
}

/// What is wrong with data.
#[derive(Clone, Copy, Debug, PartialEq, Eq)]
pub enum Error {
    /// A line of a file is wrong.
    Line {
        /// The file.
        file: &'static str,
        /// The line, from 1.
        line: usize,
        /// Why, as one of [`reason`].
        reason: u32,
    },
    /// The lines, together, can't be built into tables.
    Records {
        /// The line that states the first record at fault, if one does.
        line: Option<(&'static str, usize)>,
        /// The character of that record, if there is one.
        character: Option<char>,
        /// Why, as one of [`reason`].
        reason: u32,
        /// The written condition that the tables break, or 0.
        condition: u32,
    },
    /// A file of prepared data is wrong.
    Prepared {
        /// How many bytes come before the first fault.
        offset: usize,
        /// Why, as one of [`reason`].
        reason: u32,
        /// The written condition that its data break, or 0.
        condition: u32,
    },
    /// The data are right, but have no mapper, though one is required.
    NoMapper,
}

/// A reason in words, with the number of a condition unless that is 0.
fn write_reason(f: &mut fmt::Formatter<'_>, number: u32, condition: u32) -> fmt::Result {
    f.write_str(reason::text(number))?;
    match condition {
        0 => Ok(()),
        _ => write!(f, ", number {condition}"),
    }
}

impl fmt::Display for Error {
    fn fmt(&self, f: &mut fmt::Formatter<'_>) -> fmt::Result {
        match *self {
            Error::Line { file, line, reason } => {
                write!(f, "{file}:{line}: ")?;
                write_reason(f, reason, 0)
            }
            Error::Records {
                line,
                character,
                reason,
                condition,
            } => {
                if let Some((file, line)) = line {
                    write!(f, "{file}:{line}: ")?;
                }
                if let Some(character) = character {
                    write!(f, "U+{:04X}: ", u32::from(character))?;
                }
                write_reason(f, reason, condition)
            }
            Error::Prepared {
                offset,
                reason,
                condition,
            } => {
                write!(f, "byte {offset}: ")?;
                write_reason(f, reason, condition)
            }
            Error::NoMapper => f.write_str("the data have no mapper"),
        }
    }
}

impl std::error::Error for Error {}

const FILES: [&str; 3] = ["UnicodeData.txt", "CompositionExclusions.txt", "IdnaMappingTable.txt"];

impl Error {
    /// What is wrong, if it isn't memory.
    pub(crate) fn of(status: u32, defect: ffi::Defect) -> Option<Error> {
        let (reason, condition) = (defect.reason, defect.condition);
        let file = FILES.get(defect.source as usize).copied();
        match status {
            ffi::WRONG_LINE => Some(Error::Line {
                file: file.unwrap_or(""),
                line: defect.place,
                reason,
            }),
            ffi::WRONG_RECORDS => Some(Error::Records {
                line: file.map(|file| (file, defect.place)),
                character: char::from_u32(defect.character),
                reason,
                condition,
            }),
            ffi::WRONG_PREPARED => Some(Error::Prepared {
                offset: defect.place,
                reason,
                condition,
            }),
            _ => None,
        }
    }
}
