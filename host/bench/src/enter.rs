//! Functions of a relay's types that do nothing but answer where they were entered.

use std::hint::black_box;

macro_rules! enter {
    ($($name:ident($($of:ty),*);)*) => {
        $(
            #[allow(clippy::too_many_arguments)]
            pub unsafe extern "C" fn $name($(_: $of),*) -> usize {
                let here = 0u8;
                black_box(&here) as *const u8 as usize
            }
        )*
    };
}

enter! {
    receive(*mut u64, usize, *mut u32, usize, *mut u32, usize, *mut u8, usize, usize, usize,
        u32, *const u8, usize, *mut u8, usize, *mut u64, usize);
    receive_timed(*mut u64, usize, *mut u32, usize, *mut u32, usize, *mut u8, usize, usize, u32,
        *const u8, usize, *mut u8, usize, *mut u64, usize);
    give_up(*mut u64, usize, *mut u32, usize, *mut u32, usize, usize, u32);
    receive_for(usize, *mut u64, usize, *mut u32, usize, *mut u32, usize, *mut u8, usize, usize,
        u32, *const u8, usize, *mut u8, usize, *mut u64, usize);
    give_up_for(usize, *mut u64, usize, *mut u32, usize, *mut u32, usize, usize, u32);
}
