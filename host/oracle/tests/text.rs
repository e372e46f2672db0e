//! The given text is the published one.

#[path = "../sha256.rs"]
mod sha256;

use std::path::Path;

/// The examples of FIPS 180-4's authors, and lengths around the padding's edges (sums of `sha256sum`).
#[test]
fn sha256_examples() {
    let sum_of = |n: usize| sha256::hex(&vec![b'a'; n]);
    assert_eq!(sha256::hex(b""), "e3b0c44298fc1c149afbf4c8996fb92427ae41e4649b934ca495991b7852b855");
    assert_eq!(sha256::hex(b"abc"), "ba7816bf8f01cfea414140de5dae2223b00361a396177a9cb410ff61f20015ad");
    let two_blocks = b"abcdbcdecdefdefgefghfghighijhijkijkljklmklmnlmnomnopnopq";
    assert_eq!(sha256::hex(two_blocks), "248d6a61d20638b8e5c026930c3e6039a33ce45964ff2167f6ecedd419db06c1");
    assert_eq!(sum_of(55), "9f4390f8d30c2dd92ec9f095b65e2b9ae9b0a925a5258e241c9f1e910f734318");
    assert_eq!(sum_of(56), "b35439a4ac6f0948b6d6f9e3c6af0f5f590ce20f1bde7090ef7970686ec6738a");
    assert_eq!(sum_of(64), "ffe054fe7ae0cb6dc65c3af9b61d5209f439851db43d0ba5997337df154668eb");
}

/// What was compiled is what the stored checksums say, file by file.
#[test]
fn compiled_text_has_the_stored_checksums() {
    if !oracle::available() {
        return println!("skipped: {}", oracle::SKIPPED);
    }
    let list = include_str!("../text.sha256");
    assert_eq!(list.lines().count(), 6);
    for line in list.lines() {
        let (sum, name) = line.split_once("  src/").expect("a checksum and a file");
        let bytes = std::fs::read(Path::new(env!("OUT_DIR")).join("text").join(name)).expect(name);
        assert_eq!(sha256::hex(&bytes), sum, "{name}");
    }
}
