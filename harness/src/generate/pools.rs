//! The small pools that packs are made from: names that meet again, and values at the edges of the rules.

use crate::value::PacketType;

/// (name, root name, size, resolution, signed)
pub const TYPES: [(&str, &str, u32, f64, bool); 12] = [
    ("NUMBER", "NUMBER", 0, 0.0, false),
    ("LOOKUP", "LOOKUP", 0, 0.0, false),
    ("RESERVED", "RESERVED", 0, 0.0, false),
    ("BINARY", "BINARY", 0, 0.0, false),
    ("DECIMAL", "DECIMAL", 0, 0.0, false),
    ("DYNAMIC_FIELD_KEY", "DYNAMIC_FIELD_KEY", 0, 0.0, false),
    ("DYNAMIC_FIELD_LENGTH", "DYNAMIC_FIELD_LENGTH", 0, 0.0, false),
    ("DYNAMIC_FIELD_VALUE", "DYNAMIC_FIELD_VALUE", 0, 0.0, false),
    ("STRING_FIX", "STRING_FIX", 0, 0.0, false),
    ("UINT8", "NUMBER", 8, 1.0, false),
    ("INT16", "NUMBER", 16, 1.0, true),
    ("UFIX16", "NUMBER", 16, 0.01, false),
];
pub const LOOKUPS: [&str; 10] =
    ["", "A", "A-", "AB", "INDUSTRY_CODE", "J1939_SPN", "KEYS", "MANUFACTURER_CODE", "YES_NO", "Ä"];
pub const BITS: [u32; 12] = [1, 2, 3, 4, 8, 8, 11, 16, 32, 63, 64, 65];
pub const WILD_BITS: [u32; 14] = [0, 0, 1, 2, 3, 7, 8, 11, 61, 63, 64, 65, 1_000_000, u32::MAX];
pub const FLOATS: [f64; 10] = [0.0, -0.0, 1.0, 0.1, -40.0, f64::NAN, f64::INFINITY, f64::NEG_INFINITY, 1e300, 5e-324];
pub const NUMBERS: [u32; 32] = [
    0,
    1,
    255,
    256,
    0x7ff,
    0x800,
    0xe700,
    0xe7ff,
    0xe800,
    59904,
    59905,
    61183,
    0xef00,
    0xf000,
    0xfeff,
    0xff00,
    0xffff,
    0x10000,
    0x1ec00,
    0x1ec01,
    0x1ed00,
    0x1ee01,
    0x1ef00,
    0x1ef01,
    0x1f000,
    0x1feff,
    0x1ff00,
    0x1ffff,
    131072,
    0x3ffff,
    262144,
    u32::MAX,
];
/// Numbers with a packet type that their range takes, by tree.
pub const GOOD_NUMBERS: [&[(u32, PacketType)]; 3] = {
    use PacketType::*;
    [
        &[
            (59904, Single),
            (60928, Single),
            (61184, Single),
            (61441, Single),
            (65281, Single),
            (65281, Iso),
            (126208, Fast),
            (126720, Fast),
            (127488, Single),
            (127489, Fast),
            (129029, Fast),
            (130816, Fast),
            (262144, Mixed),
        ],
        &[
            (0, Iso),
            (256, Iso),
            (59904, Single),
            (61184, Single),
            (61444, Single),
            (61444, Single),
            (65253, Single),
            (65262, Iso),
            (65280, Single),
            (126720, Iso),
            (126976, Iso),
            (262145, Fast),
        ],
        &[(0, Single), (1, Single), (1, Single), (256, Single), (2047, Single), (262144, Fast)],
    ]
};
pub const TEXTS: [&str; 12] =
    ["", "a", "f0", "f1", "reserved", "reserved7", "reservedX", "spare", "spare1a", "é", "n0", "a,1=2"];
pub const NAMES: [&str; 6] = ["Reserved", "Spare", "SPN 1", "SPN 2", "x", ""];
/// None begins with 0x, so that the oracle can be asked.
pub const MATCHES: [&str; 22] = [
    "0",
    "1",
    "2",
    "+1",
    "+5",
    "-0",
    "",
    "+",
    "++1",
    "01",
    "1,1=2",
    "n0",
    "n1",
    "7",
    "8",
    "18446744073709551615",
    "18446744073709551616",
    "\"é\u{7f}",
    "+0x1F",
    "-0x1",
    "00x1",
    "x1F",
];
