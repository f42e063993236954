//! What old Rust lacks of numbers, and the kit's names for the bits of a float that may be a NaN's.

#![allow(non_upper_case_globals)]

/// Kit `f32::from_bits_with_nan`.
pub const f32_from_bits_with_nan: fn(u32) -> f32 = f32::from_bits;
/// Kit `f32::to_bits_with_nan`.
pub const f32_to_bits_with_nan: fn(f32) -> u32 = f32::to_bits;
/// Kit `f64::from_bits_with_nan`.
pub const f64_from_bits_with_nan: fn(u64) -> f64 = f64::from_bits;
/// Kit `f64::to_bits_with_nan`.
pub const f64_to_bits_with_nan: fn(f64) -> u64 = f64::to_bits;

/// Kit `cast_signed` and `cast_unsigned`, for Rust before 1.87: the same bits as the other kind of number.
pub trait Casts<Signed, Unsigned> {
    /// As a signed number.
    fn cast_signed(self) -> Signed;
    /// As an unsigned number.
    fn cast_unsigned(self) -> Unsigned;
}

macro_rules! casts {
    ($($of:ident $signed:ident $unsigned:ident)*) => { $(
        impl Casts<$signed, $unsigned> for $of {
            fn cast_signed(self) -> $signed {
                self as $signed
            }

            fn cast_unsigned(self) -> $unsigned {
                self as $unsigned
            }
        }
    )* };
}

casts! { u8 i8 u8 u16 i16 u16 u32 i32 u32 u64 i64 u64 u128 i128 u128 }
casts! { i8 i8 u8 i16 i16 u16 i32 i32 u32 i64 i64 u64 i128 i128 u128 }

/// Kit `u64::ilog2`, for Rust before 1.67.
pub trait Ilog2 {
    /// The place of the highest bit, of a number that is not 0.
    fn ilog2(self) -> u32;
}

impl Ilog2 for u64 {
    fn ilog2(self) -> u32 {
        63 - self.leading_zeros()
    }
}
