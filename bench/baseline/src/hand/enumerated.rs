//! ENUMERATED without an extension mark: an enum of the items in the order of their numbers.
macro_rules! enumerated {
    ($(#[$doc:meta])* $name:ident { $($item:ident),* $(,)? }) => {
        $(#[$doc])*
        #[derive(Clone, Copy)]
        #[allow(dead_code)]
        pub enum $name {
            $($item,)*
        }

        impl $name {
            const ALL: &[Self] = &[$(Self::$item,)*];
            const WIDTH: u32 = crate::bits::width(0, Self::ALL.len() as i64 - 1);

            #[inline]
            fn put(self, bits: &mut BitWriter) {
                bits.put(Self::WIDTH, self as u64);
            }

            #[inline]
            fn take(bits: &mut BitReader) -> Option<Self> {
                Self::ALL.get(bits.take(Self::WIDTH)? as usize).copied()
            }
        }
    };
}

pub(super) use enumerated;
