//! Stand-in for `blake3`: a type of 32 bytes, compared and hashed by those bytes. Nothing is digested: a
//! call of the hasher stops the program, because the frame that it would run over is not in the text.
pub const OUT_LEN: usize = 32;

#[derive(Clone, Copy, Debug, PartialEq, Eq, Hash)]
pub struct Hash([u8; OUT_LEN]);

impl Hash {
    pub fn as_bytes(&self) -> &[u8; OUT_LEN] {
        &self.0
    }

    pub fn to_hex(&self) -> String {
        self.0.iter().map(|b| format!("{b:02x}")).collect()
    }
}

impl From<[u8; OUT_LEN]> for Hash {
    fn from(bytes: [u8; OUT_LEN]) -> Self {
        Hash(bytes)
    }
}

impl From<Hash> for [u8; OUT_LEN] {
    fn from(hash: Hash) -> Self {
        hash.0
    }
}

pub struct Hasher(());

#[allow(clippy::new_without_default)] // the published files ask for `new` alone
impl Hasher {
    pub fn new() -> Self {
        unimplemented!("nothing is digested here")
    }

    pub fn update(&mut self, _: &[u8]) -> &mut Self {
        unimplemented!("nothing is digested here")
    }

    pub fn finalize(&self) -> Hash {
        unimplemented!("nothing is digested here")
    }
}
