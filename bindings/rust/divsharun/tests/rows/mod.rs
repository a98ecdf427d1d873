// SPDX-License-Identifier: Apache-2.0 OR BSD-3-Clause
//! Inputs of the replay program: lines, each with its result.

/// Lines, each with its result.
pub type Rows = &'static [(&'static str, &'static str)];

/// Two ranges are allocated and freed, and leave one gap.
pub const FIRST_PROGRAM: Rows = &[
    ("space 16 4", "done"),
    ("first 1 1", "range 16 16"),
    ("first 1 1", "range 17 17"),
    ("free 16 16", "done"),
    ("free 17 17", "done"),
    ("first 4 1", "range 16 19"),
];

/// Lines that are not in the language, and a line before there is a space.
const LINE_GRAMMAR: Rows = &[
    ("first 1 1", "error no-space"),
    ("", "error line"),
    ("first 01x 1", "error line"),
    ("space 18446744073709551616 1", "error line"),
    ("first  1 1", "error line"),
    (
        "xxxxxxxxxxxxxxxxxxxxxxxxxxxxxxxxxxxxxxxxxxxxxxxxxxxxxxxxxxxxxxxxxxxxxxxxxxxxxxxxxxxxxxxxxxxxxxxxxxxxxxxxxxxxxxxxxxxxxxxxx",
        "error line",
    ),
    ("space 0 016", "done"),
];

/// A request for more than is free, and the freeing of a range that no call allocated.
const FULL_SPACE: Rows = &[
    ("space 16 4", "done"),
    ("first 1 1", "range 16 16"),
    ("first 4 1", "error not-available"),
    ("first 3 1", "range 17 19"),
    ("first 1 1", "error not-available"),
    ("free 16 17", "error not-available"),
    ("free 16 16", "done"),
    ("first 1 1", "range 16 16"),
];

/// Words are separated by one space, and numbers have from one to twenty digits.
const WORDS_AND_NUMBERS: Rows = &[
    ("space 00000000000000000016 4", "done"),
    ("first 000000000000000000001 1", "error line"),
    ("first 1 9999999999999999999", "error invalid-alignment"),
    ("first 1 000000000000000000a", "error line"),
    ("first 1 0000000000000000000a", "error line"),
    ("first 1 99999999999999999999", "error line"),
    (" first 1 1", "error line"),
    ("first 1 1 ", "error line"),
    ("first\t1 1", "error line"),
    ("first 1 1\r", "error line"),
    ("first 1", "error line"),
    ("first 1 1 1", "error line"),
    ("first 1 -1", "error line"),
    ("First 1 1", "error line"),
    ("first 1 1", "range 16 16"),
];

/// The order of the errors. An error for a new space keeps the old one.
const ERRORS_IN_ORDER: Rows = &[
    ("free 2 1", "error no-space"),
    ("first 0 3", "error no-space"),
    ("free 2 1 0", "error line"),
    ("space 0 0", "error underflow"),
    ("space 18446744073709551615 2", "error overflow"),
    ("free 16 16", "error no-space"),
    ("space 16 4", "done"),
    ("first 0 3", "error invalid-size 0"),
    ("first 1 3", "error invalid-alignment"),
    ("first 1 1", "range 16 16"),
    ("free 2 1", "error invalid-range 2 1"),
    (
        "free 18446744073709551615 18446744073709551614",
        "error invalid-range 18446744073709551615 18446744073709551614",
    ),
    (
        "free 0 18446744073709551615",
        "error invalid-range 0 18446744073709551615",
    ),
    ("space 0 0", "error underflow"),
    ("free 16 16", "done"),
    ("space 18446744073709551615 1", "done"),
    ("first 1 1", "error overflow"),
    ("free 16 16", "error not-available"),
];

/// Each error of a line on a space.
pub const PROGRAM_ERRORS: Rows = &[
    ("space 0 0", "error underflow"),
    ("space 18446744073709551615 2", "error overflow"),
    ("space 4096 4096", "done"),
    ("first 0 4", "error invalid-size 0"),
    ("first 4 3", "error invalid-alignment"),
    ("exact 4 4 4099", "error unaligned"),
    ("exact 256 256 4096", "range 4096 4351"),
    ("exact 256 256 4096", "error state 4096 4351"),
    ("free 4351 4096", "error invalid-range 4351 4096"),
    ("free 4096 4350", "error not-available"),
    ("last 4096 1", "error not-available"),
    ("last 16 16", "range 8176 8191"),
    ("free 4096 4351", "done"),
    ("space 0 0", "error underflow"),
    ("first 3840 1", "range 4096 7935"),
];

/// Ranges by their starts, and gaps that are joined again.
const PLACES_OF_A_START: Rows = &[
    ("space 0 10", "done"),
    ("exact 1 1 3", "range 3 3"),
    ("exact 1 1 5", "range 5 5"),
    ("exact 1 1 4", "range 4 4"),
    ("free 3 3", "done"),
    ("free 5 5", "done"),
    ("exact 2 1 3", "error not-available"),
    ("exact 2 1 2", "range 2 3"),
    ("free 2 3", "done"),
    ("free 4 4", "done"),
    ("last 10 1", "range 0 9"),
];

/// The errors of the three policies.
const ALL_POLICIES: Rows = &[
    ("last 1 1", "error no-space"),
    ("exact 1 1 16", "error no-space"),
    ("last 1", "error line"),
    ("last 1 1 1", "error line"),
    ("exact 1 1", "error line"),
    ("exact 1 1 1 1", "error line"),
    ("exact", "error line"),
    ("exact 1 1 18446744073709551616", "error line"),
    ("space 16 4", "done"),
    ("last 0 3", "error invalid-size 0"),
    ("exact 0 3 17", "error invalid-size 0"),
    ("exact 1 3 17", "error invalid-alignment"),
    ("exact 2 2 17", "error unaligned"),
    ("exact 1 1 15", "error not-available"),
    ("exact 1 1 18446744073709551615", "error overflow"),
    ("last 2 2", "range 18 19"),
    ("exact 1 1 18", "error not-available"),
    ("exact 2 2 18", "error state 18 19"),
    ("exact 1 1 17", "range 17 17"),
    ("last 1 1", "range 16 16"),
];

/// Each error of a line on ids.
pub const PROGRAM_IDS: Rows = &[
    ("id", "error no-ids"),
    ("ids 5 5", "done"),
    ("id", "id 5"),
    ("id", "error not-available"),
    ("has 5", "yes"),
    ("unid 5", "id 5"),
    ("unid 5", "error already-released 5"),
    ("unid 6", "error out-of-range 6"),
    ("ids 4294967294 4294967295", "done"),
    ("id", "id 4294967294"),
    ("id", "id 4294967295"),
    ("id", "error overflow"),
    ("unid 4294967296", "error line"),
];

/// The order of the errors. An error for new ids keeps the old ones.
const ERRORS_OF_IDS: Rows = &[
    ("id 1", "error line"),
    ("unid", "error line"),
    ("has", "error line"),
    ("ids 1", "error line"),
    ("ids 1 2 3", "error line"),
    ("id", "error no-ids"),
    ("unid 7", "error no-ids"),
    ("has 7", "error no-ids"),
    ("ids 2 1", "error invalid-range 2 1"),
    ("id", "error no-ids"),
    ("ids 0 1", "done"),
    ("unid 2", "error out-of-range 2"),
    ("unid 0", "error never-allocated 0"),
    ("id", "id 0"),
    ("id 0", "error line"),
    ("ids 3 2", "error invalid-range 3 2"),
    ("unid 1", "error never-allocated 1"),
    ("unid 0", "id 0"),
    ("unid 0", "error already-released 0"),
];

/// Ids are allocated until they are freed.
const HELD_IDS: Rows = &[
    ("ids 7 9", "done"),
    ("has 6", "no"),
    ("has 7", "no"),
    ("id", "id 7"),
    ("id", "id 8"),
    ("has 7", "yes"),
    ("has 8", "yes"),
    ("has 9", "no"),
    ("unid 7", "id 7"),
    ("has 7", "no"),
    ("has 8", "yes"),
    ("ids 9 7", "error invalid-range 9 7"),
    ("has 8", "yes"),
    ("id", "id 7"),
    ("has 7", "yes"),
    ("ids 7 9", "done"),
    ("has 7", "no"),
    ("has 8", "no"),
];

/// The numbers of lines on ids have 32 bits.
const NUMBERS_OF_32_BITS: Rows = &[
    ("ids 0 4294967296", "error line"),
    ("ids 4294967296 4294967297", "error line"),
    ("ids 00000000000000000000 00000000004294967295", "done"),
    ("has 4294967295", "no"),
    ("has 4294967296", "error line"),
    ("unid 4294967295", "error never-allocated 4294967295"),
    ("unid 18446744073709551615", "error line"),
    ("has 18446744073709551616", "error line"),
    ("has 000000000000000000000", "error line"),
    ("has 1x", "error line"),
    ("id ", "error line"),
    ("has  0", "error line"),
    ("Id", "error line"),
    ("id", "id 0"),
];

/// A space and ids share nothing.
const SPACE_BESIDE_IDS: Rows = &[
    ("ids 5 6", "done"),
    ("id", "id 5"),
    ("first 1 1", "error no-space"),
    ("space 5 2", "done"),
    ("has 5", "yes"),
    ("first 1 1", "range 5 5"),
    ("id", "id 6"),
    ("ids 5 6", "done"),
    ("first 1 1", "range 6 6"),
    ("space 0 0", "error underflow"),
    ("id", "id 5"),
];

/// A device has an id and a range together, and both are freed together.
const PROGRAM_DEVICES: Rows = &[
    ("device 1 1", "error no-manager"),
    ("manager 0 1 4096 4096", "done"),
    ("device 2048 2048", "device 0 4096 6143"),
    ("device 4096 1", "error not-available"),
    ("device 1 1", "device 1 6144 6144"),
    ("device 1 1", "error not-available"),
    ("undevice 0", "done"),
    ("undevice 0", "error never-allocated 0"),
    ("undevice 1", "done"),
    ("device 4096 1", "device 0 4096 8191"),
];

/// The error of the id is before the error of the range. An error for a new manager keeps the old
/// one.
const ERRORS_OF_DEVICES: Rows = &[
    ("undevice 0", "error no-manager"),
    ("device 0 3", "error no-manager"),
    ("undevice 4294967296", "error line"),
    ("manager 2 1 0 0", "error invalid-range 2 1"),
    ("manager 1 2 0 0", "error underflow"),
    ("manager 1 2 18446744073709551615 2", "error overflow"),
    ("device 1 1", "error no-manager"),
    ("manager 1 2 16 4", "done"),
    ("device 0 3", "error invalid-size 0"),
    ("device 1 3", "error invalid-alignment"),
    ("undevice 1", "error never-allocated 1"),
    ("device 2 2", "device 1 16 17"),
    ("manager 2 1 0 0", "error invalid-range 2 1"),
    ("manager 1 2 0 0", "error underflow"),
    ("manager 1 2 18446744073709551615 2", "error overflow"),
    ("device 1 1", "device 2 18 18"),
    ("device 0 3", "error not-available"),
    ("undevice 3", "error never-allocated 3"),
    ("undevice 1", "done"),
    ("device 3 1", "error not-available"),
    ("device 2 1", "device 1 16 17"),
    (
        "manager 4294967295 4294967295 18446744073709551615 1",
        "done",
    ),
    ("device 1 1", "error overflow"),
    ("manager 4294967295 4294967295 0 4", "done"),
    ("device 1 1", "device 4294967295 0 0"),
    ("device 0 3", "error overflow"),
];

/// The ids of these lines have 32 bits, and the other numbers have 64 bits.
const WORDS_ON_DEVICES: Rows = &[
    ("manager", "error line"),
    ("manager 0", "error line"),
    ("manager 0 1", "error line"),
    ("manager 0 1 0", "error line"),
    ("manager 0 1 0 4 4", "error line"),
    ("manager 0 1 0 4 ", "error line"),
    (" manager 0 1 0 4", "error line"),
    ("manager  0 1 0 4", "error line"),
    ("manager x 1 0 4", "error line"),
    ("manager 0 x 0 4", "error line"),
    ("manager 0 1 x 4", "error line"),
    ("manager 0 1 0 x", "error line"),
    ("manager 4294967296 4294967297 0 4", "error line"),
    ("manager 4294967296 0 0 4", "error line"),
    ("manager 0 4294967296 0 4", "error line"),
    ("manager 0 1 18446744073709551616 1", "error line"),
    ("manager 0 1 0 18446744073709551616", "error line"),
    ("device 1 1", "error no-manager"),
    (
        "manager 00000000000000000000 00000000004294967295 0 18446744073709551615",
        "done",
    ),
    ("device", "error line"),
    ("device 1", "error line"),
    ("device 1 1 1", "error line"),
    ("device 18446744073709551616 1", "error line"),
    ("device 1 18446744073709551616", "error line"),
    ("device 4294967296 4294967296", "device 0 0 4294967295"),
    ("Device 1 1", "error line"),
    ("undevice", "error line"),
    ("undevice 0 0", "error line"),
    ("undevice 0x", "error line"),
    ("undevice 4294967296", "error line"),
    ("undevice 18446744073709551616", "error line"),
    ("undevice 4294967295", "error never-allocated 4294967295"),
    ("undevice 00000000000000000000", "done"),
    ("device 1 9223372036854775808", "device 0 0 0"),
    (
        "device 1 9223372036854775808",
        "device 1 9223372036854775808 9223372036854775808",
    ),
];

/// A manager, a space and ids share nothing.
const MANAGER_BESIDE_OTHERS: Rows = &[
    ("manager 5 6 16 4", "done"),
    ("first 1 1", "error no-space"),
    ("id", "error no-ids"),
    ("device 1 1", "device 5 16 16"),
    ("space 16 4", "done"),
    ("ids 5 6", "done"),
    ("has 5", "no"),
    ("first 1 1", "range 16 16"),
    ("id", "id 5"),
    ("device 2 1", "device 6 17 18"),
    ("first 1 1", "range 17 17"),
    ("id", "id 6"),
    ("free 16 16", "done"),
    ("unid 5", "id 5"),
    ("device 1 1", "error not-available"),
    ("undevice 6", "done"),
    ("has 6", "yes"),
    ("free 17 18", "error not-available"),
    ("space 16 4", "done"),
    ("ids 5 6", "done"),
    ("device 4 1", "error not-available"),
    ("undevice 5", "done"),
    ("undevice 5", "error never-allocated 5"),
    ("first 1 1", "range 16 16"),
    ("id", "id 5"),
    ("manager 5 6 16 4", "done"),
    ("has 5", "yes"),
    ("free 16 16", "done"),
    ("device 4 1", "device 5 16 19"),
];

/// All tables, by name.
pub const PROGRAMS: [(&str, Rows); 18] = [
    ("no line", &[]),
    ("first program", FIRST_PROGRAM),
    ("line grammar", LINE_GRAMMAR),
    ("full space", FULL_SPACE),
    ("words and numbers", WORDS_AND_NUMBERS),
    ("errors in order", ERRORS_IN_ORDER),
    ("errors of a program", PROGRAM_ERRORS),
    ("places of a start", PLACES_OF_A_START),
    ("all policies", ALL_POLICIES),
    ("ids", PROGRAM_IDS),
    ("errors of ids", ERRORS_OF_IDS),
    ("held ids", HELD_IDS),
    ("numbers of 32 bits", NUMBERS_OF_32_BITS),
    ("a space beside ids", SPACE_BESIDE_IDS),
    ("devices", PROGRAM_DEVICES),
    ("errors of devices", ERRORS_OF_DEVICES),
    ("words on devices", WORDS_ON_DEVICES),
    ("a manager beside others", MANAGER_BESIDE_OTHERS),
];

/// Prefixes of lines of [`PROGRAM_ERRORS`] and [`PROGRAM_IDS`] that are in the language too: the line, its prefix, and
/// the result of the prefix as the last line.
pub const CUT_LINES: [(&str, &str, &str); 39] = [
    ("space 4096 4096", "space 4096 4", "done"),
    ("space 4096 4096", "space 4096 40", "done"),
    ("space 4096 4096", "space 4096 409", "done"),
    ("exact 4 4 4099", "exact 4 4 4", "error not-available"),
    ("exact 4 4 4099", "exact 4 4 40", "error not-available"),
    ("exact 4 4 4099", "exact 4 4 409", "error unaligned"),
    ("exact 256 256 4096", "exact 256 256 4", "error unaligned"),
    ("exact 256 256 4096", "exact 256 256 40", "error unaligned"),
    ("exact 256 256 4096", "exact 256 256 409", "error unaligned"),
    (
        "free 4351 4096",
        "free 4351 4",
        "error invalid-range 4351 4",
    ),
    (
        "free 4351 4096",
        "free 4351 40",
        "error invalid-range 4351 40",
    ),
    (
        "free 4351 4096",
        "free 4351 409",
        "error invalid-range 4351 409",
    ),
    (
        "free 4096 4350",
        "free 4096 4",
        "error invalid-range 4096 4",
    ),
    (
        "free 4096 4350",
        "free 4096 43",
        "error invalid-range 4096 43",
    ),
    (
        "free 4096 4350",
        "free 4096 435",
        "error invalid-range 4096 435",
    ),
    ("last 16 16", "last 16 1", "range 8176 8191"),
    (
        "free 4096 4351",
        "free 4096 4",
        "error invalid-range 4096 4",
    ),
    (
        "free 4096 4351",
        "free 4096 43",
        "error invalid-range 4096 43",
    ),
    (
        "free 4096 4351",
        "free 4096 435",
        "error invalid-range 4096 435",
    ),
    ("ids 5 5", "id", "error no-ids"),
    ("ids 4294967294 4294967295", "id", "id 5"),
    (
        "ids 4294967294 4294967295",
        "ids 4294967294 4",
        "error invalid-range 4294967294 4",
    ),
    (
        "ids 4294967294 4294967295",
        "ids 4294967294 42",
        "error invalid-range 4294967294 42",
    ),
    (
        "ids 4294967294 4294967295",
        "ids 4294967294 429",
        "error invalid-range 4294967294 429",
    ),
    (
        "ids 4294967294 4294967295",
        "ids 4294967294 4294",
        "error invalid-range 4294967294 4294",
    ),
    (
        "ids 4294967294 4294967295",
        "ids 4294967294 42949",
        "error invalid-range 4294967294 42949",
    ),
    (
        "ids 4294967294 4294967295",
        "ids 4294967294 429496",
        "error invalid-range 4294967294 429496",
    ),
    (
        "ids 4294967294 4294967295",
        "ids 4294967294 4294967",
        "error invalid-range 4294967294 4294967",
    ),
    (
        "ids 4294967294 4294967295",
        "ids 4294967294 42949672",
        "error invalid-range 4294967294 42949672",
    ),
    (
        "ids 4294967294 4294967295",
        "ids 4294967294 429496729",
        "error invalid-range 4294967294 429496729",
    ),
    ("unid 4294967296", "unid 4", "error out-of-range 4"),
    ("unid 4294967296", "unid 42", "error out-of-range 42"),
    ("unid 4294967296", "unid 429", "error out-of-range 429"),
    ("unid 4294967296", "unid 4294", "error out-of-range 4294"),
    ("unid 4294967296", "unid 42949", "error out-of-range 42949"),
    (
        "unid 4294967296",
        "unid 429496",
        "error out-of-range 429496",
    ),
    (
        "unid 4294967296",
        "unid 4294967",
        "error out-of-range 4294967",
    ),
    (
        "unid 4294967296",
        "unid 42949672",
        "error out-of-range 42949672",
    ),
    (
        "unid 4294967296",
        "unid 429496729",
        "error out-of-range 429496729",
    ),
];
