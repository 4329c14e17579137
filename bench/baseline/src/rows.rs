//! What the messages have.

/// The ranges and the numbers of the wide message: low, high, number.
pub const ROWS: [(i64, i64, i64); 40] = [
    (0, 1, 0),
    (1, 255, 11),
    (-3, 32762, 15822),
    (-2097152, 2097151, 942034),
    (17, 536870927, 369754978),
    (-100000, 68719376733, 20629949061),
    (0, 7, 0),
    (1, 1023, 801),
    (-3, 131066, 103692),
    (-8388608, 8388607, -7082098),
    (17, 2147483663, 598712608),
    (-100000, 274877806941, 178698950923),
    (0, 31, 12),
    (1, 4095, 2232),
    (-3, 524282, 190494),
    (-33554432, 33554431, -4620470),
    (17, 8589934607, 4048886621),
    (-100000, 1099511527773, 1092682197141),
    (0, 127, 40),
    (1, 16383, 7188),
    (-3, 2097146, 1967128),
    (-134217728, 134217727, -10547450),
    (17, 34359738383, 33268868985),
    (-100000, -99997, -99997),
    (0, 511, 228),
    (1, 65535, 38337),
    (-3, 8388602, 1375552),
    (-536870912, 536870911, -184246590),
    (17, 137438953487, 19539179326),
    (-100000, -99987, -99987),
    (0, 2047, 1696),
    (1, 262143, 179256),
    (-3, 33554426, 18147568),
    (-2147483648, 2147483647, 1655320190),
    (17, 549755813903, 108888704663),
    (-100000, -99939, -99951),
    (0, 8191, 5724),
    (1, 1048575, 313962),
    (-3, 134217722, 11833360),
    (-8589934592, 8589934591, 2958016058),
];

/// The path of the vehicle of `cam`: each point beside the one before it in latitude, longitude and height,
/// and the time from there, 0 for none.
pub const PATH: [(i32, i32, i16, i64); 23] = [
    (-1506, -707, -10, 1393),
    (-377, -386, 45, 1157),
    (-565, -1587, 14, 178),
    (-2258, -969, -56, 236),
    (-1956, -1802, -52, 0),
    (-1165, -461, 10, 929),
    (-422, -3476, 12, 313),
    (-1094, -2673, 20, 1253),
    (-433, -2453, 14, 872),
    (-383, -995, -55, 0),
    (-2460, -3606, -43, 653),
    (-1896, -680, 9, 301),
    (-2518, -1353, 11, 430),
    (-602, -2472, 13, 1368),
    (-949, -1615, -48, 1181),
    (-437, -2401, -53, 0),
    (-1023, -2123, 27, 1148),
    (-1931, -3273, -20, 1013),
    (-2578, -3872, -2, 800),
    (-1407, -1107, 41, 428),
    (-1179, -425, 13, 0),
    (-1409, -2241, 3, 763),
    (-2018, -1269, 17, 209),
];

/// The path of the vehicle of `bsm`: where each point lies from it in latitude, longitude and height, how long
/// ago it was there, and its speed, 0 for none.
pub const CRUMBS: [(i32, i32, i16, u16, u16); 8] = [
    (-2152, 3746, 31, 289, 759),
    (-4302, 6026, 35, 427, 723),
    (-6698, 8174, 40, 674, 801),
    (-7760, 8759, 17, 841, 718),
    (-8431, 11165, 48, 1093, 705),
    (-11169, 12987, 17, 1350, 794),
    (-13990, 15849, -20, 1599, 701),
    (-16454, 16307, -33, 1698, 724),
];

/// How many strings a message of strings has.
pub const STRINGS: usize = 18;

/// How many octets each has.
pub const LENGTH: usize = 1000;

/// How many octets the longest string has that is decoded in turn.
pub const MOST: usize = 1255;

/// The octets that the strings are cut from: the string after `count` others begins at `count`.
pub fn source() -> Vec<u8> {
    let mut octet = 0u8;
    let mut next = || {
        let now = octet;
        octet = octet.wrapping_mul(165).wrapping_add(77);
        now
    };
    (0..MOST + STRINGS).map(|_| next()).collect()
}

/// A number for each of that many readings of `list`, from whose bits the reading is made.
pub fn states(count: usize, seed: u32) -> impl Iterator<Item = u32> {
    let next = |state: &u32| Some(state.wrapping_mul(1664525).wrapping_add(1013904223));
    std::iter::successors(Some(seed), next).skip(1).take(count)
}
