//! Ours: the names of p3_field that the Rust's files use, with one field,
//! the prime 2013265921 = 15 * 2^27 + 1 and its extension by x^4 = 11.
use core::fmt::{self, Debug, Display};
use core::hash::Hash;
use core::iter::{Product, Sum};
use core::ops::*;

pub const P: u32 = 2013265921;

pub trait PrimeCharacteristicRing:
    Sized
    + Default
    + Clone
    + Debug
    + Add<Output = Self>
    + AddAssign
    + Sub<Output = Self>
    + SubAssign
    + Neg<Output = Self>
    + Mul<Output = Self>
    + MulAssign
    + Sum
    + Product
{
    const ZERO: Self;
    const ONE: Self;
    const TWO: Self;
    const NEG_ONE: Self;
    fn from_u64(x: u64) -> Self;
    fn from_usize(x: usize) -> Self {
        Self::from_u64(x as u64)
    }
    fn double(&self) -> Self {
        self.clone() + self.clone()
    }
    fn halve(&self) -> Self;
    fn square(&self) -> Self {
        self.clone() * self.clone()
    }
    fn exp_u64(&self, mut e: u64) -> Self {
        let mut b = self.clone();
        let mut r = Self::ONE;
        while e > 0 {
            if e & 1 == 1 {
                r *= b.clone();
            }
            b = b.square();
            e >>= 1;
        }
        r
    }
    fn exp_power_of_2(&self, k: usize) -> Self {
        let mut r = self.clone();
        for _ in 0..k {
            r = r.square();
        }
        r
    }
    fn powers(&self) -> Powers<Self> {
        Powers {
            base: self.clone(),
            current: Self::ONE,
        }
    }
    fn zero_vec(len: usize) -> Vec<Self> {
        vec![Self::ZERO; len]
    }
}
#[derive(Clone)]
pub struct Powers<R> {
    base: R,
    current: R,
}
impl<R: PrimeCharacteristicRing> Iterator for Powers<R> {
    type Item = R;
    fn next(&mut self) -> Option<R> {
        let r = self.current.clone();
        self.current *= self.base.clone();
        Some(r)
    }
}
pub trait Algebra<F>:
    PrimeCharacteristicRing
    + From<F>
    + Add<F, Output = Self>
    + AddAssign<F>
    + Sub<F, Output = Self>
    + SubAssign<F>
    + Mul<F, Output = Self>
    + MulAssign<F>
{
}
pub trait Field:
    Algebra<Self> + Copy + Eq + Hash + Send + Sync + Display + Div<Output = Self> + 'static
{
    const GENERATOR: Self;
    fn is_zero(&self) -> bool {
        *self == Self::ZERO
    }
    fn try_inverse(&self) -> Option<Self>;
    fn inverse(&self) -> Self {
        self.try_inverse().expect("Tried to invert zero")
    }
}
pub trait BasedVectorSpace<F>: Sized {
    const DIMENSION: usize;
    fn as_basis_coefficients_slice(&self) -> &[F];
    fn from_basis_coefficients_fn<Fn: FnMut(usize) -> F>(f: Fn) -> Self;
}
pub trait ExtensionField<Base: Field>: Field + Algebra<Base> + BasedVectorSpace<Base> {}
pub trait PrimeField: Field + Ord {}
pub trait PrimeField64: PrimeField {
    const ORDER_U64: u64;
    fn as_canonical_u64(&self) -> u64;
}
pub trait TwoAdicField: Field {
    const TWO_ADICITY: usize;
    fn two_adic_generator(bits: usize) -> Self;
}
pub fn batch_multiplicative_inverse<F: Field>(x: &[F]) -> Vec<F> {
    x.iter().map(|x| x.inverse()).collect()
}

/// Base element: a word below the prime.
#[derive(Clone, Copy, PartialEq, Eq, Hash, Default)]
#[repr(transparent)]
pub struct BabyBear(u32);

/// The sum of four products of canonical words, reduced once: each is below 2^62, so the sum fits.
#[inline(always)]
fn dot4(a: [u32; 4], b: [u32; 4]) -> u32 {
    let s = a[0] as u64 * b[0] as u64
        + a[1] as u64 * b[1] as u64
        + a[2] as u64 * b[2] as u64
        + a[3] as u64 * b[3] as u64;
    (s % P as u64) as u32
}

impl BabyBear {
    pub const fn new(x: u32) -> Self {
        assert!(x < P);
        Self(x)
    }
    pub fn word(self) -> u32 {
        self.0
    }
}
impl Debug for BabyBear {
    fn fmt(&self, f: &mut fmt::Formatter<'_>) -> fmt::Result {
        write!(f, "{}", self.word())
    }
}
impl Display for BabyBear {
    fn fmt(&self, f: &mut fmt::Formatter<'_>) -> fmt::Result {
        write!(f, "{}", self.word())
    }
}
impl PartialOrd for BabyBear {
    fn partial_cmp(&self, o: &Self) -> Option<core::cmp::Ordering> {
        Some(self.cmp(o))
    }
}
impl Ord for BabyBear {
    fn cmp(&self, o: &Self) -> core::cmp::Ordering {
        self.word().cmp(&o.word())
    }
}
impl serde::Serialize for BabyBear {
    fn serialize<S: serde::Serializer>(&self, s: S) -> Result<S::Ok, S::Error> {
        s.serialize_u32(self.word())
    }
}
impl<'de> serde::Deserialize<'de> for BabyBear {
    fn deserialize<D: serde::Deserializer<'de>>(d: D) -> Result<Self, D::Error> {
        let x = <u32 as serde::Deserialize>::deserialize(d)?;
        if x < P {
            Ok(Self::new(x))
        } else {
            Err(serde::de::Error::custom("not canonical"))
        }
    }
}
impl Add for BabyBear {
    type Output = Self;
    #[inline(always)]
    fn add(self, o: Self) -> Self {
        let s = self.0 + o.0;
        let (r, b) = s.overflowing_sub(P);
        Self(if b { s } else { r })
    }
}
impl Sub for BabyBear {
    type Output = Self;
    #[inline(always)]
    fn sub(self, o: Self) -> Self {
        let (r, b) = self.0.overflowing_sub(o.0);
        Self(if b { r.wrapping_add(P) } else { r })
    }
}
impl Neg for BabyBear {
    type Output = Self;
    #[inline(always)]
    fn neg(self) -> Self {
        Self(0) - self
    }
}
impl Mul for BabyBear {
    type Output = Self;
    #[inline(always)]
    fn mul(self, o: Self) -> Self {
        Self((self.0 as u64 * o.0 as u64 % P as u64) as u32)
    }
}
const INV2: BabyBear = BabyBear::new(1006632961);
impl PrimeCharacteristicRing for BabyBear {
    const ZERO: Self = Self::new(0);
    const ONE: Self = Self::new(1);
    const TWO: Self = Self::new(2);
    const NEG_ONE: Self = Self::new(P - 1);
    fn from_u64(x: u64) -> Self {
        Self::new((x % P as u64) as u32)
    }
    #[inline(always)]
    fn halve(&self) -> Self {
        *self * INV2
    }
}
impl Field for BabyBear {
    const GENERATOR: Self = Self::new(31);
    fn try_inverse(&self) -> Option<Self> {
        if *self == Self::ZERO {
            None
        } else {
            Some(self.exp_u64(P as u64 - 2))
        }
    }
}
impl PrimeField for BabyBear {}
impl PrimeField64 for BabyBear {
    const ORDER_U64: u64 = P as u64;
    fn as_canonical_u64(&self) -> u64 {
        self.word() as u64
    }
}
impl TwoAdicField for BabyBear {
    const TWO_ADICITY: usize = 27;
    /// 0x1a427a41 = 31^15 has order 2^27.
    fn two_adic_generator(bits: usize) -> Self {
        assert!(bits <= 27);
        Self::new(0x1a427a41).exp_power_of_2(27 - bits)
    }
}
/// c0 + c1 x + c2 x^2 + c3 x^3 with x^4 = 11
#[derive(Clone, Copy, PartialEq, Eq, Hash, Default, serde::Serialize, serde::Deserialize)]
#[repr(transparent)]
pub struct Ext(pub [BabyBear; 4]);
const W: BabyBear = BabyBear::new(11);
impl Ext {
    pub fn words(self) -> [u32; 4] {
        self.0.map(|c| c.word())
    }
}
impl Debug for Ext {
    fn fmt(&self, f: &mut fmt::Formatter<'_>) -> fmt::Result {
        Display::fmt(self, f)
    }
}
impl Display for Ext {
    fn fmt(&self, f: &mut fmt::Formatter<'_>) -> fmt::Result {
        let w = self.words();
        write!(f, "{},{},{},{}", w[0], w[1], w[2], w[3])
    }
}
impl Add for Ext {
    type Output = Self;
    #[inline(always)]
    fn add(self, o: Self) -> Self {
        Ext(core::array::from_fn(|i| self.0[i] + o.0[i]))
    }
}
impl Sub for Ext {
    type Output = Self;
    #[inline(always)]
    fn sub(self, o: Self) -> Self {
        Ext(core::array::from_fn(|i| self.0[i] - o.0[i]))
    }
}
impl Neg for Ext {
    type Output = Self;
    #[inline(always)]
    fn neg(self) -> Self {
        Ext(self.0.map(|c| -c))
    }
}
impl Mul for Ext {
    type Output = Self;
    #[inline(always)]
    fn mul(self, o: Self) -> Self {
        let a = self.0.map(|c| c.0);
        let b = o.0.map(|c| c.0);
        // 11*b1, 11*b2, 11*b3
        let w1 = (W * o.0[1]).0;
        let w2 = (W * o.0[2]).0;
        let w3 = (W * o.0[3]).0;
        Ext([
            BabyBear(dot4(a, [b[0], w3, w2, w1])),
            BabyBear(dot4(a, [b[1], b[0], w3, w2])),
            BabyBear(dot4(a, [b[2], b[1], b[0], w3])),
            BabyBear(dot4(a, [b[3], b[2], b[1], b[0]])),
        ])
    }
}
impl From<BabyBear> for Ext {
    #[inline(always)]
    fn from(x: BabyBear) -> Self {
        Ext([x, BabyBear::ZERO, BabyBear::ZERO, BabyBear::ZERO])
    }
}
impl Add<BabyBear> for Ext {
    type Output = Self;
    #[inline(always)]
    fn add(self, o: BabyBear) -> Self {
        Ext([self.0[0] + o, self.0[1], self.0[2], self.0[3]])
    }
}
impl Sub<BabyBear> for Ext {
    type Output = Self;
    #[inline(always)]
    fn sub(self, o: BabyBear) -> Self {
        Ext([self.0[0] - o, self.0[1], self.0[2], self.0[3]])
    }
}
impl Mul<BabyBear> for Ext {
    type Output = Self;
    #[inline(always)]
    fn mul(self, o: BabyBear) -> Self {
        Ext(self.0.map(|c| c * o))
    }
}
macro_rules! assigns {
    ($t:ty, $r:ty) => {
        impl AddAssign<$r> for $t {
            #[inline(always)]
            fn add_assign(&mut self, o: $r) {
                *self = *self + o;
            }
        }
        impl SubAssign<$r> for $t {
            #[inline(always)]
            fn sub_assign(&mut self, o: $r) {
                *self = *self - o;
            }
        }
        impl MulAssign<$r> for $t {
            #[inline(always)]
            fn mul_assign(&mut self, o: $r) {
                *self = *self * o;
            }
        }
        impl Algebra<$r> for $t {}
    };
}
assigns!(BabyBear, BabyBear);
assigns!(Ext, Ext);
assigns!(Ext, BabyBear);
impl ExtensionField<BabyBear> for Ext {}
impl<F: Field> ExtensionField<F> for F {}
impl<F: Field> BasedVectorSpace<F> for F {
    const DIMENSION: usize = 1;
    fn as_basis_coefficients_slice(&self) -> &[F] {
        core::slice::from_ref(self)
    }
    fn from_basis_coefficients_fn<Fn: FnMut(usize) -> F>(mut f: Fn) -> Self {
        f(0)
    }
}
macro_rules! common {
    ($t:ty) => {
        impl Sum for $t {
            fn sum<I: Iterator<Item = Self>>(i: I) -> Self {
                i.fold(Self::ZERO, |a, b| a + b)
            }
        }
        impl Product for $t {
            fn product<I: Iterator<Item = Self>>(i: I) -> Self {
                i.fold(Self::ONE, |a, b| a * b)
            }
        }
        impl Div for $t {
            type Output = Self;
            fn div(self, o: Self) -> Self {
                self * o.inverse()
            }
        }
    };
}
common!(BabyBear);
common!(Ext);
const Z: BabyBear = BabyBear::new(0);
impl PrimeCharacteristicRing for Ext {
    const ZERO: Self = Ext([Z; 4]);
    const ONE: Self = Ext([BabyBear::ONE, Z, Z, Z]);
    const TWO: Self = Ext([BabyBear::TWO, Z, Z, Z]);
    const NEG_ONE: Self = Ext([BabyBear::NEG_ONE, Z, Z, Z]);
    fn from_u64(x: u64) -> Self {
        BabyBear::from_u64(x).into()
    }
    #[inline(always)]
    fn halve(&self) -> Self {
        Ext(self.0.map(|c| c.halve()))
    }
}
impl Field for Ext {
    const GENERATOR: Self = Ext([BabyBear::new(8), BabyBear::ONE, Z, Z]);
    fn try_inverse(&self) -> Option<Self> {
        if *self == Self::ZERO {
            return None;
        }
        // tower: y = x^2, y^2 = 11; a = A + x B with A = a0 + a2 y, B = a1 + a3 y
        let [a0, a1, a2, a3] = self.0;
        // N = A^2 - y B^2 = n0 + n1 y
        let n0 = a0 * a0 + W * a2 * a2 - W * (a1 * a3).double();
        let n1 = (a0 * a2).double() - (a1 * a1 + W * a3 * a3);
        let d = (n0 * n0 - W * n1 * n1).inverse();
        let (m0, m1) = (n0 * d, -n1 * d);
        // (A - x B)(m0 + m1 y)
        Some(Ext([
            a0 * m0 + W * a2 * m1,
            -(a1 * m0 + W * a3 * m1),
            a0 * m1 + a2 * m0,
            -(a1 * m1 + a3 * m0),
        ]))
    }
}
impl BasedVectorSpace<BabyBear> for Ext {
    const DIMENSION: usize = 4;
    fn as_basis_coefficients_slice(&self) -> &[BabyBear] {
        &self.0
    }
    fn from_basis_coefficients_fn<Fn: FnMut(usize) -> BabyBear>(f: Fn) -> Self {
        Ext(core::array::from_fn(f))
    }
}
impl TwoAdicField for Ext {
    const TWO_ADICITY: usize = 29;
    fn two_adic_generator(bits: usize) -> Self {
        // orders 2^28 and 2^29 lie outside the base field and are not used here
        BabyBear::two_adic_generator(bits).into()
    }
}
