/* Unicode normalization (Unicode Standard Annex #15) for C and C++: NFD, NFC, NFKD and NFKC of UTF-8 and of UTF-16.

       icu_normalizer normalizer = ICU_NORMALIZER_CLOSED;
       status = icu_normalizer_open_prepared(&normalizer, data, data_length, &defect);
       status = icu_normalizer_normalize_utf8(&normalizer, ICU_NORMALIZER_NFC, input, length, output, room, &needed);
       icu_normalizer_close(&normalizer);

   `tools/install PREFIX` installs the library: `cc prog.c $(pkg-config --cflags --libs icu_normalizer)`. The header
   needs C99 or C++11.

   Threads may use one handle: a call takes it by an atomic exchange, and while it runs each other call with the handle
   returns IN_USE and does nothing else. To work at the same time, give each thread a handle by icu_normalizer_share:
   they use the same data.

   A pointer with a length is an array of that many units: bytes, or units of 16 or 32 bits in the order of the machine.
   For an array of none it may be null. Nothing is read or written outside the arrays.

   What the library can't see, the program must establish:
   - Other pointers are never null. Each pointer is aligned for its type, and an array has at most PTRDIFF_MAX bytes.
   - What a call may write to overlaps nothing else that is passed, and nothing of what is passed is changed while the
     call runs, but that other calls may be given the handle.
   - A `bool` is 0 or 1.
   - A handle begins as ICU_NORMALIZER_CLOSED. A program may move it while no call has it, but changes nothing in it,
     and uses one copy.
   - No call is made in a signal handler, nor in the forked child of a process with threads.
   - The program's malloc, realloc and free come from one allocator, and align a block of each size to each power of
     two up to 16 that divides the size. */
#ifndef ICU_NORMALIZER_H
#define ICU_NORMALIZER_H

#include <stdbool.h>
#include <stddef.h>
#include <stdint.h>

#ifdef __cplusplus
extern "C" {
#endif

/* The version of this header. icu_normalizer_version() returns that of the library. */
#define ICU_NORMALIZER_VERSION_MAJOR 1
#define ICU_NORMALIZER_VERSION_MINOR 0
#define ICU_NORMALIZER_VERSION_PATCH 0
#define ICU_NORMALIZER_VERSION \
    (ICU_NORMALIZER_VERSION_MAJOR << 16 | ICU_NORMALIZER_VERSION_MINOR << 8 | ICU_NORMALIZER_VERSION_PATCH)

/* Normalizers to the four forms and perhaps a mapper, or none. */
typedef struct icu_normalizer {
    void *normalizers;
    bool is_open;
    size_t is_in_use; /* 1 while a call has the handle */
} icu_normalizer;

/* A handle that has no normalizers, to initialize one. */
#define ICU_NORMALIZER_CLOSED {NULL, false, 0}

/* The four forms (Unicode Standard Annex #15, section 1.2). */
typedef uint32_t icu_normalizer_form;
#define ICU_NORMALIZER_NFD 0u
#define ICU_NORMALIZER_NFC 1u
#define ICU_NORMALIZER_NFKD 2u
#define ICU_NORMALIZER_NFKC 3u

/* How a call ended. */
typedef uint32_t icu_normalizer_status;
#define ICU_NORMALIZER_OK 0u
/* The buffer is too small for what is written; `*needed` says how long that is. */
#define ICU_NORMALIZER_BUFFER_TOO_SMALL 1u
/* An allocation failed. */
#define ICU_NORMALIZER_OUT_OF_MEMORY 2u
/* No form has this number. */
#define ICU_NORMALIZER_UNKNOWN_FORM 3u
/* The handle has no normalizers. */
#define ICU_NORMALIZER_NOT_OPEN 4u
/* A line of a data file is wrong. */
#define ICU_NORMALIZER_WRONG_LINE 5u
/* The records, together, can't be built into tables. */
#define ICU_NORMALIZER_WRONG_RECORDS 6u
/* The handle has no mapper. */
#define ICU_NORMALIZER_NO_MAPPER 7u
/* Another call has the handle. */
#define ICU_NORMALIZER_IN_USE 9u
/* A file of prepared data is wrong. */
#define ICU_NORMALIZER_WRONG_PREPARED 10u

/* Returns what a status means, in English. */
static inline const char *icu_normalizer_status_text(icu_normalizer_status status) {
    switch (status) {
        case ICU_NORMALIZER_OK: return "no error";
        case ICU_NORMALIZER_BUFFER_TOO_SMALL: return "the buffer is too small";
        case ICU_NORMALIZER_OUT_OF_MEMORY: return "out of memory";
        case ICU_NORMALIZER_UNKNOWN_FORM: return "no form has this number";
        case ICU_NORMALIZER_NOT_OPEN: return "the normalizer isn't open";
        case ICU_NORMALIZER_WRONG_LINE: return "a line of a data file is wrong";
        case ICU_NORMALIZER_WRONG_RECORDS: return "the records can't be built into tables";
        case ICU_NORMALIZER_NO_MAPPER: return "the normalizer has no mapper";
        case ICU_NORMALIZER_IN_USE: return "another call uses the normalizer";
        case ICU_NORMALIZER_WRONG_PREPARED: return "the file of prepared data is wrong";
        default: return "no status has this number";
    }
}

/* The first mismatch of an input with its form. If there is none, the numbers are 0. */
typedef struct icu_normalizer_mismatch {
    size_t offset;     /* how many units come before it */
    uint32_t found;    /* the character there */
    uint32_t expected; /* the character that the form has there */
    bool exists;       /* whether there is a mismatch */
} icu_normalizer_mismatch;

/* Where data are wrong, and why. It is written on three statuses only:
   - WRONG_LINE: the first line that is wrong, of CompositionExclusions.txt, then of UnicodeData.txt, then of
     IdnaMappingTable.txt. Files that are cut off or state different versions are refused before lines are read.
   - WRONG_RECORDS: each line is right by itself, but what all say can't be built into tables. The reason is the first
     of 10 to 16 that is so, else 18 or 17. The place is the line that states the first record at fault, those of
     IdnaMappingTable.txt after the others. `character` is its character. If no single record is at fault, as with
     reason 18, the source is ALL_RECORDS, and the place 0.
   - WRONG_PREPARED: the first fault of the file, or with reason 17 the condition that its data break.

   With reason 17, `condition` is the number of the first written condition that the tables break (docs/CONDITIONS.md).

   A table may be wrong only together with UnicodeData.txt. With Unicode's own data, to map U+0041 alone, to U+0061,
   is refused with reason 17 and condition 8: a member of a list must read to itself, but the list of U+00C0 has
   U+0041. IdnaMappingTable.txt maps U+00C0 and all others whose lists have U+0041 too. */
typedef struct icu_normalizer_defect {
    size_t place; /* the line of a file, from 1; how many bytes of a prepared file come before; or 0 */
    uint32_t source;    /* which data */
    uint32_t reason;    /* what is wrong */
    uint32_t character; /* the character of the record at fault, or NO_CHARACTER */
    uint32_t condition; /* with reason 17 the number of a written condition, else 0 */
} icu_normalizer_defect;

/* No character. */
#define ICU_NORMALIZER_NO_CHARACTER 0x110000u

/* Which data. */
#define ICU_NORMALIZER_UNICODE_DATA 0u
#define ICU_NORMALIZER_COMPOSITION_EXCLUSIONS 1u
#define ICU_NORMALIZER_IDNA_MAPPING_TABLE 2u
#define ICU_NORMALIZER_ALL_RECORDS 4u
#define ICU_NORMALIZER_PREPARED 6u

/* Returns what the reason of a defect means, in English: 1 to 8 and 19 to 24 are of lines, 10 to 18 of the records that
   lines state together, 25 to 33 of a file of prepared data, of which 17 may be too. */
static inline const char *icu_normalizer_reason_text(uint32_t reason) {
    switch (reason) {
        case 1: return "the line has too few fields";
        case 2: return "the code point is not a hexadecimal number up to 10FFFF";
        case 3: return "the canonical combining class is not a number from 0 to 254";
        case 4: return "the mapping is not a list of characters";
        case 5: return "the status is not one of Unicode Technical Standard #46";
        case 6: return "the code points don't strictly rise";
        case 7: return "a range of code points is not closed";
        case 8: return "a class or a mapping of what is not one character";
        case 10: return "the records don't strictly rise by character";
        case 11: return "a record of U+FFFD, a conjoining jamo or a Hangul syllable";
        case 12: return "a class of 255, or a list that begins with a mark";
        case 13: return "a mapping of a wrong length or with a character that it may not have";
        case 14: return "more than 16 records lead from one to the next";
        case 15: return "a list is too long";
        case 16: return "two records give the same pair";
        case 17: return "the data break a written condition";
        case 18: return "the lists have more items than the tables hold";
        case 19: return "the last line has no line feed: the file is cut off";
        case 20: return "UnicodeData.txt has no canonical mapping of the character";
        case 21: return "the file has no end mark: it is cut off";
        case 22: return "code points before this line are missing";
        case 23: return "the file ends before U+10FFFF";
        case 24: return "the files state different versions of Unicode";
        case 25: return "it isn't a file of prepared data";
        case 26: return "the format is of another version";
        case 27: return "the file has another length";
        case 28: return "a sum of the bytes is another";
        case 29: return "the file is cut off";
        case 31: return "the runs of a table aren't those of all code points";
        case 32: return "a number isn't that of a character";
        case 33: return "there are more bytes";
        default: return "no reason has this number";
    }
}

/* Returns the version of the library, as ICU_NORMALIZER_VERSION. */
uint32_t icu_normalizer_version(void);

/* Opens `to` by the data of `from`, which both then share: nothing is read or copied. What `to` had is closed. Each is
   closed by itself, in any order and on any thread; the last one frees the data. Opening `from` again leaves `to` as it
   is. On an error `to` keeps what it had: IN_USE of either, NOT_OPEN of `from`, OUT_OF_MEMORY. */
icu_normalizer_status icu_normalizer_share(icu_normalizer *from, icu_normalizer *to);

/* Closes the handle, which then has no normalizers. A closed handle stays closed, and one that another call has
   stays as it is; null is ignored. */
void icu_normalizer_close(icu_normalizer *normalizer);

/* Opens normalizers by the bytes of UnicodeData.txt and CompositionExclusions.txt, of any version of Unicode, without a
   mapper. What the handle had is closed. On an error the handle keeps what it had: WRONG_LINE, WRONG_RECORDS,
   OUT_OF_MEMORY, IN_USE. */
icu_normalizer_status icu_normalizer_open_unicode_data(icu_normalizer *normalizer,
    const uint8_t *unicode_data, size_t unicode_data_length,
    const uint8_t *exclusions, size_t exclusions_length);

/* The same, with a mapper by the bytes of IdnaMappingTable.txt, if that maps, ignores or disallows a character. With
   `idna_table_length` 0 there is no table, and no mapper. Its disallowed ranges of more than `disallowed_limit` code
   points are left out, and a mapper leaves their characters as they are; most of them are unassigned. With 0x110000
   none is left out. On WRONG_LINE and WRONG_RECORDS `*defect` says where the data are wrong; else it is unchanged. */
icu_normalizer_status icu_normalizer_open_files(icu_normalizer *normalizer,
    const uint8_t *unicode_data, size_t unicode_data_length, const uint8_t *exclusions, size_t exclusions_length,
    const uint8_t *idna_table, size_t idna_table_length, uint32_t disallowed_limit, icu_normalizer_defect *defect);

/* The same by the bytes of a file of prepared data (docs/FORMAT.md), which `uninorm prepare` makes of Unicode's
   files: the file is smaller, and is opened in less time. It needs no trust: each byte is checked, and the data meet
   the same conditions as those of files. There is a mapper if its data aren't the canonical ones. On WRONG_PREPARED
   `*defect` says what is wrong; else it is unchanged. */
icu_normalizer_status icu_normalizer_open_prepared(icu_normalizer *normalizer,
    const uint8_t *prepared, size_t prepared_length, icu_normalizer_defect *defect);

/* Sets `*version` to the version of Unicode that the data state, 0x120000 for 18.0.0: a file of prepared data, or else
   CompositionExclusions.txt. It is 0 if they state none, or a number above 255. The error is NOT_OPEN or IN_USE. */
icu_normalizer_status icu_normalizer_unicode_version(icu_normalizer *normalizer, uint32_t *version);

/* Each call below ends with IN_USE if another call has the handle, else with NOT_OPEN if it has no normalizers, else
   with UNKNOWN_FORM if no form has the number. OUT_OF_MEMORY comes only if an allocation failed. On any error, nothing
   is written but what is said. Nothing is allocated, unless more than 17 characters are buffered at a time, as in a
   longer run of marks.

   With Unicode's own data a form in UTF-8 has at most 3 times the bytes of the input for NFC and NFD, and 11 times
   for NFKC and NFKD; in UTF-16 and UTF-32 3 times the units for NFC, 4 times for NFD and 18 times for NFKC and NFKD. */

/* Writes the form of `input` to `output`, as it is made. Each maximal ill-formed subpart of UTF-8, and each unpaired
   surrogate of UTF-16, reads as U+FFFD. `*needed` is how many units the form has: on success, and on BUFFER_TOO_SMALL.
   After that `output` has the first units of the form, as many as it has room for; with room for none, the form is only
   counted. After OUT_OF_MEMORY the front of `output` may have first units of the form, and the rest is unchanged. */
icu_normalizer_status icu_normalizer_normalize_utf8(icu_normalizer *normalizer, icu_normalizer_form form,
    const uint8_t *input, size_t input_length, uint8_t *output, size_t output_length, size_t *needed);
icu_normalizer_status icu_normalizer_normalize_utf16(icu_normalizer *normalizer, icu_normalizer_form form,
    const uint16_t *input, size_t input_length, uint16_t *output, size_t output_length, size_t *needed);

/* The same for UTF-32, in which each unit is one character: for char32_t, for wchar_t if it has 32 bits, and for
   strings of Python. A unit that isn't a Unicode scalar value, such as a surrogate, reads as U+FFFD. It is meant for
   short texts: a long one takes less time in UTF-8 or UTF-16. */
icu_normalizer_status icu_normalizer_normalize_utf32(icu_normalizer *normalizer, icu_normalizer_form form,
    const uint32_t *input, size_t input_length, uint32_t *output, size_t output_length, size_t *needed);

/* Sets `*is_normalized` to whether `input` is well-formed and already normalized. */
icu_normalizer_status icu_normalizer_is_normalized_utf8(icu_normalizer *normalizer,
    icu_normalizer_form form, const uint8_t *input, size_t input_length, bool *is_normalized);
icu_normalizer_status icu_normalizer_is_normalized_utf16(icu_normalizer *normalizer,
    icu_normalizer_form form, const uint16_t *input, size_t input_length, bool *is_normalized);

/* The same for UTF-32. If a unit isn't a Unicode scalar value, the result is false. There are no other calls for
   UTF-32: convert the text. */
icu_normalizer_status icu_normalizer_is_normalized_utf32(icu_normalizer *normalizer,
    icu_normalizer_form form, const uint32_t *input, size_t input_length, bool *is_normalized);

/* Sets `*cut` to the length of the longest beginning of `input` that is well-formed and that the form begins with,
   followed by the form of the rest. It is `input_length` exactly if `input` is well-formed and normalized. */
icu_normalizer_status icu_normalizer_split_utf8(icu_normalizer *normalizer, icu_normalizer_form form,
    const uint8_t *input, size_t input_length, size_t *cut);
icu_normalizer_status icu_normalizer_split_utf16(icu_normalizer *normalizer, icu_normalizer_form form,
    const uint16_t *input, size_t input_length, size_t *cut);

/* Sets `*mismatch` to the first place where `input` is ill-formed or differs from its form. At an ill-formed sequence,
   U+FFFD is found, and may be expected too. More units after a well-formed `input` never remove the mismatch, nor move
   it later. */
icu_normalizer_status icu_normalizer_first_mismatch_utf8(icu_normalizer *normalizer,
    icu_normalizer_form form, const uint8_t *input, size_t input_length, icu_normalizer_mismatch *mismatch);
icu_normalizer_status icu_normalizer_first_mismatch_utf16(icu_normalizer *normalizer,
    icu_normalizer_form form, const uint16_t *input, size_t input_length, icu_normalizer_mismatch *mismatch);

/* The calls below are on characters. Nothing is allocated. A number that isn't a Unicode scalar value reads as
   U+FFFD: by Unicode's own data its class is 0, it has no composite and no mapping, and a boundary before it. */

/* Sets `*has_boundary` to whether a text may be divided before this character: then the form is that of what comes
   before, followed by that of the rest. It may be false though all texts may be divided there. */
icu_normalizer_status icu_normalizer_has_boundary_before(icu_normalizer *normalizer, icu_normalizer_form form,
    uint32_t character, bool *has_boundary);

/* Sets `*combining_class` to the canonical combining class of a character, 0 of a starter. */
icu_normalizer_status icu_normalizer_combining_class(icu_normalizer *normalizer, uint32_t character,
    uint8_t *combining_class);

/* Sets `*composite` to what two characters compose to, Hangul syllables included, or to NO_CHARACTER. */
icu_normalizer_status icu_normalizer_compose(icu_normalizer *normalizer, uint32_t first, uint32_t second,
    uint32_t *composite);

/* Sets `*first` and `*second` to the canonical mapping of a character, one step of its decomposition. If that is one
   character, `*second` is NO_CHARACTER, and if it has none, both are. A Hangul syllable of three jamo maps to one of
   two and the third. */
icu_normalizer_status icu_normalizer_decompose(icu_normalizer *normalizer, uint32_t character,
    uint32_t *first, uint32_t *second);

/* The calls below use the mapper (Unicode Technical Standard #46, section 4). Each ends with IN_USE if another call
   has the handle, else with NOT_OPEN if it has no normalizers, else with NO_MAPPER if it has no mapper. `*needed` is
   how many units are written: on success, and on BUFFER_TOO_SMALL. STD3 rules, Punycode and the other steps of the
   standard are left to the caller. */

/* Writes `input` mapped and in NFC to `output`: ignored characters are dropped, disallowed ones become U+FFFD. On any
   error `output` is unchanged. What is written is first made in memory that is allocated. */
icu_normalizer_status icu_normalizer_map_utf8(icu_normalizer *normalizer,
    const uint8_t *input, size_t input_length, uint8_t *output, size_t output_length, size_t *needed);
icu_normalizer_status icu_normalizer_map_utf16(icu_normalizer *normalizer,
    const uint16_t *input, size_t input_length, uint16_t *output, size_t output_length, size_t *needed);

/* The same, but ignored characters become U+FFFD too. Mapped text is valid only if this leaves it unchanged. */
icu_normalizer_status icu_normalizer_validate_utf8(icu_normalizer *normalizer,
    const uint8_t *input, size_t input_length, uint8_t *output, size_t output_length, size_t *needed);
icu_normalizer_status icu_normalizer_validate_utf16(icu_normalizer *normalizer,
    const uint16_t *input, size_t input_length, uint16_t *output, size_t output_length, size_t *needed);

#ifdef __cplusplus
}
#endif

#endif
