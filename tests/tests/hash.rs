//! FNV-1a: published vectors (Landon Curt Noll's test suite), and random block numbers through both implementations.
use cache_tests::hash;
use cache_tests::reference::fnv;
use cache_tests::reference::rng::Rng;

const PUBLISHED: [(&[u8], u32); 38] = [
    (b"", 0x811c9dc5),
    (b"a", 0xe40c292c),
    (b"b", 0xe70c2de5),
    (b"c", 0xe60c2c52),
    (b"d", 0xe10c2473),
    (b"e", 0xe00c22e0),
    (b"f", 0xe30c2799),
    (b"fo", 0x6222e842),
    (b"foo", 0xa9f37ed7),
    (b"foob", 0x3f5076ef),
    (b"fooba", 0x39aaa18a),
    (b"foobar", 0xbf9cf968),
    (b"\0", 0x050c5d1f),
    (b"a\0", 0x2b24d044),
    (b"foo\0", 0x6150ac75),
    (b"foobar\0", 0x0c1c9eb8),
    (b"ch", 0x5f299f4e),
    (b"cho", 0xef8580f3),
    (b"chon", 0xac297727),
    (b"chong", 0x4546b9c0),
    (b"chongo", 0xbd564e7d),
    (b"chongo ", 0x6bdd5c67),
    (b"\xff\x00\x00\x01", 0xc48fb86d),
    (b"\x01\x00\x00\xff", 0x2269f369),
    (b"\xff\x00\x00\x02", 0xc18fb3b4),
    (b"\x02\x00\x00\xff", 0x50ef1236),
    (b"\xff\x00\x00\x03", 0xc28fb547),
    (b"\x03\x00\x00\xff", 0x96c3bf47),
    (b"\xff\x00\x00\x04", 0xbf8fb08e),
    (b"\x04\x00\x00\xff", 0xf3e4d49c),
    (b"\x40\x51\x4e\x44", 0x32179058),
    (b"\x44\x4e\x51\x40", 0x280bfee6),
    (b"\x40\x51\x4e\x4a", 0x30178d32),
    (b"\x4a\x4e\x51\x40", 0x21addaf8),
    (b"\x40\x51\x4e\x54", 0x4217a988),
    (b"\x54\x4e\x51\x40", 0x772633d6),
    // the published four-byte inputs whose hash is 0
    (b"\xcc\x24\x31\xc4", 0),
    (b"\xe0\x4d\x9f\xcb", 0),
];

#[test]
fn published_vectors() {
    let mut through_the_library = 0;
    for (bytes, expected) in PUBLISHED {
        assert_eq!(fnv::fnv1a(bytes), expected, "{bytes:?}");
        // the library hashes block numbers: inputs of four bytes
        if let Ok(four) = <[u8; 4]>::try_from(bytes) {
            assert_eq!(hash(u32::from_le_bytes(four)), expected, "{bytes:?}");
            through_the_library += 1;
        }
    }
    println!("{} published vectors, {through_the_library} of them through the library", PUBLISHED.len());
    assert!(through_the_library >= 19);
}

#[test]
fn every_block_number_a_store_can_have() {
    let end = 262_144;
    for block in 0..=end {
        assert_eq!(hash(block), fnv::of_block(block), "block {block}");
    }
    println!("block numbers 0 to {end}");
}

#[test]
fn random_block_numbers() {
    let mut rng = Rng::announced("random_block_numbers", 3);
    let cases = 1_000_000;
    for _ in 0..cases {
        let block = rng.word();
        assert_eq!(hash(block), fnv::of_block(block), "block {block}");
    }
    for corner in [0, 1, 255, 256, 65_535, 65_536, 1 << 24, (1 << 28) - 1, 1 << 28, 1 << 31, u32::MAX] {
        assert_eq!(hash(corner), fnv::of_block(corner), "block {corner}");
    }
    println!("{cases} random block numbers and 11 corners");
}
