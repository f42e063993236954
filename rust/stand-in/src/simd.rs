//! As much of the kit's vectors as is used: bytes in lanes, compared one by one. rustc makes vector code of the loops.

#![allow(non_camel_case_types)]

use core::ops::{BitAnd, BitOr};

/// Kit `simd::prelude`.
pub mod prelude {
    pub use super::{u8x16, u8x32, u8x64};
}

/// Kit `Simd<u8, N>`: N bytes, which are 16, 32 or 64. As a `Mask` a lane is 255 where it holds, and 0 where not.
#[derive(Clone, Copy)]
pub struct Lanes<const N: usize>([u8; N]);

/// 16 bytes.
pub type u8x16 = Lanes<16>;
/// 32 bytes.
pub type u8x32 = Lanes<32>;
/// 64 bytes.
pub type u8x64 = Lanes<64>;

impl<const N: usize> Lanes<N> {
    /// Kit `Simd::splat`: the byte in each lane.
    #[inline(always)]
    pub fn splat(byte: u8) -> Self {
        Lanes([byte; N])
    }

    /// Kit `Simd::from_slice`: the first N bytes.
    #[inline(always)]
    pub fn from_slice(bytes: &[u8]) -> Self {
        let mut lanes = [0; N];
        lanes.copy_from_slice(&bytes[..N]);
        Lanes(lanes)
    }

    /// Kit `Simd::simd_eq`: a mask of where they are equal.
    #[inline(always)]
    pub fn simd_eq(self, other: Self) -> Self {
        self.with(other, |a, b| if a == b { 255 } else { 0 })
    }

    /// Kit `Simd::simd_ge`: a mask of where these are at least the others.
    #[inline(always)]
    pub fn simd_ge(self, other: Self) -> Self {
        self.with(other, |a, b| if a >= b { 255 } else { 0 })
    }

    /// Kit `Simd::shuffle` by all places in turn: these lanes and then those of `other`.
    #[inline(always)]
    pub fn then<const M: usize>(self, other: Self) -> Lanes<M> {
        let mut lanes = [0; M];
        lanes[..N].copy_from_slice(&self.0);
        lanes[N..].copy_from_slice(&other.0);
        Lanes(lanes)
    }

    /// Kit `Mask::select`: lanes of `yes` where the mask holds, else of `no`.
    #[inline(always)]
    pub fn select(self, yes: Self, no: Self) -> Self {
        self & yes | self.with(no, |mask, no| !mask & no)
    }

    /// Kit `Mask::to_bitmask`: bit k is lane k.
    #[inline(always)]
    pub fn to_bitmask(self) -> u64 {
        let of_16 = self.0.chunks_exact(16).map(bits_of_16);
        of_16.rev().fold(0, |bits, more| bits << 16 | more)
    }

    #[inline(always)]
    fn with(mut self, other: Self, f: impl Fn(u8, u8) -> u8) -> Self {
        for i in 0..N {
            self.0[i] = f(self.0[i], other.0[i]);
        }
        self
    }
}

impl<const N: usize> BitAnd for Lanes<N> {
    type Output = Self;

    #[inline(always)]
    fn bitand(self, other: Self) -> Self {
        self.with(other, |a, b| a & b)
    }
}

impl<const N: usize> BitOr for Lanes<N> {
    type Output = Self;

    #[inline(always)]
    fn bitor(self, other: Self) -> Self {
        self.with(other, |a, b| a | b)
    }
}

// The top bits of 16 lanes. rustc makes no vector code of the loop below.
#[cfg(target_arch = "x86_64")]
#[inline(always)]
fn bits_of_16(lanes: &[u8]) -> u64 {
    use core::arch::x86_64::{_mm_loadu_si128, _mm_movemask_epi8};
    assert!(lanes.len() == 16);
    // SAFETY: SSE2 is part of x86-64, and the 16 bytes that are read are those of the slice.
    unsafe { _mm_movemask_epi8(_mm_loadu_si128(lanes.as_ptr().cast())) as u64 }
}

#[cfg(not(target_arch = "x86_64"))]
#[inline(always)]
fn bits_of_16(lanes: &[u8]) -> u64 {
    let bits = lanes.iter().map(|lane| u64::from(lane >> 7));
    bits.rev().fold(0, |bits, more| bits << 1 | more)
}
