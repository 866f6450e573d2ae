//! Stand-in for the part of `ed25519_dalek` 2 that `identifier.rs` calls: decompression as RFC 8032 5.1.3
//! has it, compression, and the test for small order. The arithmetic is real, so `Identifier::from_bytes`
//! accepts and refuses the same bytes; `check_keys.py` holds it against plain integers. As in
//! `curve25519_dalek`, y is taken modulo p and the sign is applied to x even where x is 0: the published
//! caller finds such spellings by compressing again. Nothing signs or verifies. Not constant in time.
#![allow(clippy::needless_range_loop)] // the words of two numbers side by side

/// A number modulo p = 2^255 - 19: four words, low first, always below p.
#[derive(Clone, Copy, PartialEq, Eq, Debug)]
struct Field([u64; 4]);

const P: [u64; 4] = [0xffff_ffff_ffff_ffed, u64::MAX, u64::MAX, 0x7fff_ffff_ffff_ffff];
const ZERO: Field = Field([0; 4]);
const ONE: Field = Field([1, 0, 0, 0]);

/// d = -121665 / 121666.
const D: Field =
    Field([0x75eb_4dca_1359_78a3, 0x0070_0a4d_4141_d8ab, 0x8cc7_4079_7779_e898, 0x5203_6cee_2b6f_fe73]);

/// A root of -1: 2 to the power (p - 1) / 4.
const ROOT: Field =
    Field([0xc4ee_1b27_4a0e_a0b0, 0x2f43_1806_ad2f_e478, 0x2b4d_0099_3dfb_d7a7, 0x2b83_2480_4fc1_df0b]);

/// `words` less p, if they are p or more.
fn less_p(words: [u64; 4]) -> [u64; 4] {
    let mut out = [0; 4];
    let mut borrow = false;
    for i in 0..4 {
        let (word, under) = words[i].overflowing_sub(P[i]);
        let (word, under_again) = word.overflowing_sub(borrow as u64);
        out[i] = word;
        borrow = under || under_again;
    }
    if borrow {
        words
    } else {
        out
    }
}

impl Field {
    /// The low 255 bits, modulo p.
    fn from_bytes(bytes: &[u8; 32]) -> Field {
        let mut words = [0; 4];
        for (word, eight) in words.iter_mut().zip(bytes.chunks_exact(8)) {
            *word = u64::from_le_bytes(eight.try_into().expect("eight bytes"));
        }
        words[3] &= 0x7fff_ffff_ffff_ffff;
        Field(less_p(words))
    }

    fn to_bytes(self) -> [u8; 32] {
        let mut out = [0; 32];
        for (eight, word) in out.chunks_exact_mut(8).zip(self.0) {
            eight.copy_from_slice(&word.to_le_bytes());
        }
        out
    }

    fn plus(self, other: Field) -> Field {
        let mut out = [0; 4];
        let mut carry = 0u128;
        for i in 0..4 {
            carry += self.0[i] as u128 + other.0[i] as u128;
            out[i] = carry as u64;
            carry >>= 64;
        }
        Field(less_p(out)) // both are below 2^255: nothing is carried out of 256 bits
    }

    fn negated(self) -> Field {
        let mut out = [0; 4];
        let mut borrow = 0i128;
        for i in 0..4 {
            let word = P[i] as i128 - self.0[i] as i128 + borrow;
            out[i] = word as u64;
            borrow = word >> 64;
        }
        Field(less_p(out))
    }

    fn minus(self, other: Field) -> Field {
        self.plus(other.negated())
    }

    fn times(self, other: Field) -> Field {
        let mut product = [0u64; 8];
        for i in 0..4 {
            let mut carry = 0u128;
            for j in 0..4 {
                carry += self.0[i] as u128 * other.0[j] as u128 + product[i + j] as u128;
                product[i + j] = carry as u64;
                carry >>= 64;
            }
            product[i + 4] = carry as u64;
        }
        // 2^256 is 38 modulo p: the upper words are folded in until nothing stands above.
        let mut low = [product[0], product[1], product[2], product[3]];
        let mut high = [product[4], product[5], product[6], product[7]];
        while high != [0; 4] {
            let mut carry = 0u128;
            for i in 0..4 {
                carry += high[i] as u128 * 38 + low[i] as u128;
                low[i] = carry as u64;
                carry >>= 64;
            }
            high = [carry as u64, 0, 0, 0];
        }
        Field(less_p(less_p(low)))
    }

    fn squared(self) -> Field {
        self.times(self)
    }

    /// To the power 2^n - 1.
    fn to_ones(self, n: u32) -> Field {
        if n == 1 {
            return self;
        }
        let half = self.to_ones(n / 2);
        let whole = (0..n / 2).fold(half, |f, _| f.squared()).times(half);
        if n % 2 == 1 {
            whole.squared().times(self)
        } else {
            whole
        }
    }

    /// To the power (p - 5) / 8, which is 4 (2^250 - 1) + 1.
    fn to_root_power(self) -> Field {
        self.to_ones(250).squared().squared().times(self)
    }

    fn is_odd(self) -> bool {
        self.0[0] & 1 == 1
    }
}

/// A root of u / v, if it has one: u v^3 (u v^7)^((p - 5) / 8), or that times a root of -1.
fn root_of_ratio(u: Field, v: Field) -> Option<Field> {
    let v3 = v.squared().times(v);
    let v7 = v3.squared().times(v);
    let root = u.times(v3).times(u.times(v7).to_root_power());
    let back = v.times(root.squared());
    if back == u {
        Some(root)
    } else if back == u.negated() {
        Some(root.times(ROOT))
    } else {
        None
    }
}

#[derive(Clone, Copy, PartialEq, Eq, Debug)]
pub struct EdwardsPoint {
    x: Field,
    y: Field,
}

impl EdwardsPoint {
    pub fn compress(&self) -> CompressedEdwardsY {
        let mut bytes = self.y.to_bytes();
        bytes[31] |= (self.x.is_odd() as u8) << 7;
        CompressedEdwardsY(bytes)
    }

    /// Whether eight times the point is the identity: three doublings, in projective coordinates.
    fn is_small_order(&self) -> bool {
        let (mut x, mut y, mut z) = (self.x, self.y, ONE);
        for _ in 0..3 {
            let (b, c, d) = (x.plus(y).squared(), x.squared(), y.squared());
            let h = z.squared();
            let f = d.minus(c);
            let j = f.minus(h).minus(h);
            x = b.minus(c).minus(d).times(j);
            y = f.times(c.negated().minus(d));
            z = f.times(j);
        }
        x == ZERO && y == z
    }
}

pub struct CompressedEdwardsY(pub [u8; 32]);

impl CompressedEdwardsY {
    pub fn to_bytes(&self) -> [u8; 32] {
        self.0
    }

    pub fn decompress(&self) -> Option<EdwardsPoint> {
        let y = Field::from_bytes(&self.0);
        let yy = y.squared();
        let mut x = root_of_ratio(yy.minus(ONE), D.times(yy).plus(ONE))?;
        if x.is_odd() != (self.0[31] >> 7 == 1) {
            x = x.negated();
        }
        Some(EdwardsPoint { x, y })
    }
}

#[derive(Debug)]
pub struct SignatureError;

#[derive(Clone, Copy, PartialEq, Eq, Debug)]
pub struct VerifyingKey {
    bytes: [u8; 32],
    point: EdwardsPoint,
}

impl VerifyingKey {
    pub fn from_bytes(bytes: &[u8; 32]) -> Result<VerifyingKey, SignatureError> {
        let point = CompressedEdwardsY(*bytes).decompress().ok_or(SignatureError)?;
        Ok(VerifyingKey { bytes: *bytes, point })
    }

    pub fn to_bytes(&self) -> [u8; 32] {
        self.bytes
    }

    pub fn to_edwards(&self) -> EdwardsPoint {
        self.point
    }

    pub fn is_weak(&self) -> bool {
        self.point.is_small_order()
    }
}

/// No value: nothing signs here.
pub enum SigningKey {}

impl SigningKey {
    pub fn verifying_key(&self) -> VerifyingKey {
        match *self {}
    }
}
