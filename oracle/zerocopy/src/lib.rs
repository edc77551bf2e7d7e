//! The few names of zerocopy that acpi_tables uses, so that the crate builds where no registry is at hand:
//! numbers as little-endian bytes, and the bytes of a packed struct.
#![no_std]

pub use zerocopy_derive::{Immutable, IntoBytes};

/// The bytes of a value that has no padding.
///
/// # Safety
/// The value is made of bytes alone: every byte of it is initialised.
pub unsafe trait IntoBytes {
    fn as_bytes(&self) -> &[u8]
    where
        Self: Sized,
    {
        let size = core::mem::size_of::<Self>();
        unsafe { core::slice::from_raw_parts(self as *const Self as *const u8, size) }
    }
}

pub trait Immutable {}

unsafe impl IntoBytes for u8 {}
unsafe impl IntoBytes for u16 {}
unsafe impl IntoBytes for u32 {}
unsafe impl IntoBytes for u64 {}

pub mod byteorder {
    use core::marker::PhantomData;

    #[derive(Copy, Clone, Debug, Default)]
    pub struct LE;

    macro_rules! number {
        ($name:ident, $native:ty, $width:literal) => {
            #[derive(Copy, Clone, Debug)]
            #[repr(transparent)]
            pub struct $name<O>([u8; $width], PhantomData<O>);

            impl $name<LE> {
                pub fn new(value: $native) -> Self {
                    Self(value.to_le_bytes(), PhantomData)
                }

                pub fn get(self) -> $native {
                    <$native>::from_le_bytes(self.0)
                }

                pub fn set(&mut self, value: $native) {
                    self.0 = value.to_le_bytes();
                }
            }

            impl Default for $name<LE> {
                fn default() -> Self {
                    Self::new(0)
                }
            }

            impl From<$native> for $name<LE> {
                fn from(value: $native) -> Self {
                    Self::new(value)
                }
            }
        };
    }

    number!(U16, u16, 2);
    number!(U32, u32, 4);
    number!(U64, u64, 8);
}
