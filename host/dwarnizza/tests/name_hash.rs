//! Name hashes: the library against values of the sources and of a Python script that follows
//! lookup3.c, and against the second program.

mod compare;

use compare::{in_library_terms, refusal_at};
use dwarnizza::{Reason, Refusal, name_hash};
use forge::paths::{path, respelled};
use forge::random::Random;

/// The most bytes that a path has.
const LONGEST: usize = 1024;

const PATH: &[u8; 40] = br"World/Maps\Azeroth/Azeroth_32_48_obj0.ad";

/// The name hashes of the starts of that path, of 0 to 40 bytes, by the script.
const STARTS: [u64; 41] = [
    0xdead_beef_dead_beef,
    0xb8de_7eff_966f_e81e,
    0x8fe1_fb05_17d0_2f74,
    0xb3f6_3756_ef2f_d03b,
    0x2fdf_878e_0881_a5b4,
    0xcf3b_8a9e_401b_cb39,
    0xf027_f3f0_4ccd_bd90,
    0x5fe9_284c_334c_ff72,
    0xb49b_c9cf_f056_bb7b,
    0xa50b_ca46_dbe4_8b75,
    0x0035_78c9_db6e_270d,
    0x4026_1095_b05c_9946,
    0xc32a_132b_88e2_8748,
    0xab27_06a9_8cbe_bb82,
    0x6df3_f9b4_a838_5915,
    0x5194_3813_b992_3e54,
    0x7235_38a6_7495_dc32,
    0x8e8f_ad3e_f6b8_9b0f,
    0x7b3a_920d_eac1_bcaf,
    0x05a6_dcb6_5807_4fb7,
    0xfd68_d1c8_7141_8498,
    0x3645_f9e7_241f_8fc7,
    0xd041_f6ef_9abb_92de,
    0x0ae1_2006_6b7d_689b,
    0x59eb_1a1f_aee7_9bd2,
    0x4ab4_dbb4_e955_750c,
    0x9535_a470_4936_4535,
    0xa7f1_4c38_7f86_db22,
    0x6a30_c92b_be86_4d20,
    0x2177_b87e_ef29_3402,
    0x8afb_eba5_7b29_cd2b,
    0x3cae_ca4a_f2dd_1df2,
    0xddb3_10f5_c0b2_9a52,
    0x3a22_875f_1c6a_f209,
    0xdb87_a80e_27d9_f19a,
    0x13e8_275f_dd27_578f,
    0x5e16_660a_049a_0585,
    0x12b5_7f82_527c_ecd4,
    0x0924_a510_3245_6b01,
    0x6c25_8767_6a83_ac5e,
    0xf2c0_3d12_7897_4304,
];

/// The name hash by the library, after seeing that the second program gives the same.
#[track_caller]
fn compare_hash(path: &[u8]) -> Result<u64, Refusal> {
    let answer = second::name_hash::name_hash(path).map_err(in_library_terms);
    assert_eq!(name_hash(path), answer, "{} bytes", path.len());
    answer
}

/// A byte as it is hashed.
fn folded(byte: u8) -> u8 {
    match byte {
        97..=122 => byte - 32,
        47 => 92,
        _ => byte,
    }
}

#[test]
fn starts_of_a_path() {
    for (length, hash) in STARTS.into_iter().enumerate() {
        let start = &PATH[..length];
        for spelled in [
            start.to_vec(),
            start.to_ascii_uppercase(),
            start.to_ascii_lowercase(),
            start.iter().map(|&byte| folded(byte)).collect(),
        ] {
            assert_eq!(compare_hash(&spelled), Ok(hash), "{length} bytes");
        }
    }
}

/// W-202's value of the empty path, which is Jenkins' own for no bytes, and that of 004, with either
/// slash. With slashes that stay, which the second program can hash, it would be another.
#[test]
fn values_of_the_sources() {
    assert_eq!(compare_hash(b""), Ok(0xdead_beef_dead_beef));
    for path in [
        br"Interface\Icons\INV_Misc_QuestionMark.blp",
        b"Interface/Icons/INV_Misc_QuestionMark.blp",
        br"interface/icons\inv_misc_questionmark.BLP",
    ] {
        assert_eq!(compare_hash(path), Ok(0x9eb5_9e3c_7612_4837));
    }
    let slashes = b"INTERFACE/ICONS/INV_MISC_QUESTIONMARK.BLP";
    let (c, b) = second::name_hash::hashlittle2(slashes, 0, 0);
    assert_eq!((c, b), (0xdac7_ae31, 0x19af_f9ca));
}

/// Every byte value at once, and four times: the script's values.
#[test]
fn every_byte_value_at_once() {
    let bytes: Vec<u8> = (0..=u8::MAX).collect();
    assert_eq!(compare_hash(&bytes), Ok(0x064c_49fb_508e_1880));
    assert_eq!(compare_hash(&bytes.repeat(4)), Ok(0xf28d_1f87_7bd6_2263));
}

/// Two bytes are hashed alike exactly where they are the two cases of one letter from a to z, or the
/// two slashes.
#[test]
fn bytes_that_are_hashed_alike() {
    let hashes: Vec<_> = (0..=u8::MAX).map(|byte| compare_hash(&[byte])).collect();
    for one in 0..=u8::MAX {
        for other in 0..=u8::MAX {
            let alike = hashes[usize::from(one)] == hashes[usize::from(other)];
            assert_eq!(alike, folded(one) == folded(other), "{one} and {other}");
        }
    }
}

/// Every byte value at every place of a tail, with and without a block before it.
#[test]
fn every_byte_at_every_place() {
    for length in 1..=25 {
        for place in 0..length {
            let mut path = PATH[..length].to_vec();
            for byte in 0..=u8::MAX {
                path[place] = byte;
                let hash = compare_hash(&path);
                path[place] = folded(byte);
                assert_eq!(compare_hash(&path), hash, "{byte} at {place} of {length}");
            }
        }
    }
}

/// Of zeros too, where a path differs from a longer one by its length alone.
#[test]
fn every_length() {
    let bytes = Random::of_test().bytes(LONGEST);
    for length in 0..=LONGEST {
        let hash = compare_hash(&bytes[..length]).unwrap();
        let zeros = compare_hash(&vec![0; length]).unwrap();
        if length > 0 {
            assert_ne!(zeros, compare_hash(&vec![0; length - 1]).unwrap());
            assert_ne!(zeros, hash);
        }
    }
    assert_eq!(compare_hash(&[b'a'; LONGEST]), Ok(0x7260_9df7_934f_abb8));
    assert_eq!(
        compare_hash(&[b'A'; LONGEST - 1]),
        Ok(0xe218_72be_8b5f_22e9)
    );
}

#[test]
fn paths_that_are_too_long() {
    for length in (LONGEST + 1..LONGEST + 40).chain([2048, 1 << 16, (1 << 20) + 5]) {
        let refused = compare_hash(&vec![b'a'; length]).unwrap_err();
        assert_eq!(refused, refusal_at(Reason::PathLength, 0));
        assert_eq!(refused.to_string(), "refused 110: path above 1,024 bytes");
    }
}

/// Paths of every kind have one name hash in all their spellings.
#[test]
fn spellings() {
    let mut random = Random::of_test();
    let mut refused = 0;
    for _ in 0..20_000 {
        let path = path(&mut random);
        let other = respelled(&mut random, &path);
        let hash = compare_hash(&path);
        assert_eq!(compare_hash(&other), hash);
        refused += u32::from(hash.is_err());
    }
    assert!((1..10_000).contains(&refused), "{refused} were refused");
}
