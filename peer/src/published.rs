//! The standards' own values, as they print them. The tests hold this program to them, and the
//! expected lines of the program `vectors` begin with them.

/// A message of FIPS 180-4's examples with its digest.
pub struct Digest {
    pub name: &'static str,
    pub message: &'static [u8],
    pub digest: &'static str,
}

/// One block, two blocks, and the empty message.
pub const DIGESTS: [Digest; 3] = [
    Digest {
        name: "one block",
        message: b"abc",
        digest: "ba7816bf8f01cfea414140de5dae2223b00361a396177a9cb410ff61f20015ad",
    },
    Digest {
        name: "two blocks",
        message: b"abcdbcdecdefdefgefghfghighijhijkijkljklmklmnlmnomnopnopq",
        digest: "248d6a61d20638b8e5c026930c3e6039a33ce45964ff2167f6ecedd419db06c1",
    },
    Digest {
        name: "empty",
        message: b"",
        digest: "e3b0c44298fc1c149afbf4c8996fb92427ae41e4649b934ca495991b7852b855",
    },
];

/// A block of RFC 8439, in hex.
pub struct Block {
    pub name: &'static str,
    pub key: &'static str,
    pub nonce: &'static str,
    pub counter: u32,
    pub keystream: &'static str,
}

const ZERO_KEY: &str = "0000000000000000000000000000000000000000000000000000000000000000";
const ZERO_NONCE: &str = "000000000000000000000000";

/// Section 2.3.2, then appendix A.1, vectors 1 to 5.
pub const BLOCKS: [Block; 6] = [
    Block {
        name: "section 2.3.2",
        key: "000102030405060708090a0b0c0d0e0f101112131415161718191a1b1c1d1e1f",
        nonce: "000000090000004a00000000",
        counter: 1,
        keystream: "10f1e7e4d13b5915500fdd1fa32071c4c7d1f4c733c068030422aa9ac3d46c4e\
                    d2826446079faa0914c2d705d98b02a2b5129cd1de164eb9cbd083e8a2503c4e",
    },
    Block {
        name: "appendix A.1, vector 1",
        key: ZERO_KEY,
        nonce: ZERO_NONCE,
        counter: 0,
        keystream: "76b8e0ada0f13d90405d6ae55386bd28bdd219b8a08ded1aa836efcc8b770dc7\
                    da41597c5157488d7724e03fb8d84a376a43b8f41518a11cc387b669b2ee6586",
    },
    Block {
        name: "appendix A.1, vector 2",
        key: ZERO_KEY,
        nonce: ZERO_NONCE,
        counter: 1,
        keystream: "9f07e7be5551387a98ba977c732d080dcb0f29a048e3656912c6533e32ee7aed\
                    29b721769ce64e43d57133b074d839d531ed1f28510afb45ace10a1f4b794d6f",
    },
    Block {
        name: "appendix A.1, vector 3",
        key: "0000000000000000000000000000000000000000000000000000000000000001",
        nonce: ZERO_NONCE,
        counter: 1,
        keystream: "3aeb5224ecf849929b9d828db1ced4dd832025e8018b8160b82284f3c949aa5a\
                    8eca00bbb4a73bdad192b5c42f73f2fd4e273644c8b36125a64addeb006c13a0",
    },
    Block {
        name: "appendix A.1, vector 4",
        key: "00ff000000000000000000000000000000000000000000000000000000000000",
        nonce: ZERO_NONCE,
        counter: 2,
        keystream: "72d54dfbf12ec44b362692df94137f328fea8da73990265ec1bbbea1ae9af0ca\
                    13b25aa26cb4a648cb9b9d1be65b2c0924a66c54d545ec1b7374f4872e99f096",
    },
    Block {
        name: "appendix A.1, vector 5",
        key: ZERO_KEY,
        nonce: "000000000000000000000002",
        counter: 0,
        keystream: "c2c64d378cd536374ae204b9ef933fcd1a8b2288b3dfa49672ab765b54ee27c7\
                    8a970e0e955c14f3a88e741b97c286f75f8fc299e8148362fa198a39531bed6d",
    },
];
