//! The library's functions as they are, on slices: `include/plug.h` says what
//! each does.
//!
//! Each function here is safe whatever it is given: a slice leads to as many
//! bytes as it says, and a `&mut` slice overlaps no other. That is all that
//! the library asks of a caller; everything else it judges itself.

/// A function on slices for each of the library. Of its arguments, `read` is a
/// slice that is only read and `write` one that may be written: the library is
/// given the pointer and the length. Any other word is a number's type.
macro_rules! library {
    ($($c:ident as $name:ident($($argument:ident: $kind:ident),*) -> $result:ident;)*) => {
        $(function! { $c $name $result [] [] [] $($argument $kind)* })*
    };
}

/// One of them, argument by argument: what is declared, what a caller gives,
/// what the library is given.
macro_rules! function {
    ($c:ident $name:ident $result:ident [$($declared:tt)*] [$($given:tt)*] [$($passed:tt)*]
        $slice:ident read $($rest:tt)*) => {
        function! { $c $name $result
            [$($declared)* _: *const u8, _: usize,]
            [$($given)* $slice: &[u8],]
            [$($passed)* $slice.as_ptr(), $slice.len(),]
            $($rest)* }
    };
    ($c:ident $name:ident $result:ident [$($declared:tt)*] [$($given:tt)*] [$($passed:tt)*]
        $slice:ident write $($rest:tt)*) => {
        function! { $c $name $result
            [$($declared)* _: *mut u8, _: usize,]
            [$($given)* $slice: &mut [u8],]
            [$($passed)* $slice.as_mut_ptr(), $slice.len(),]
            $($rest)* }
    };
    ($c:ident $name:ident $result:ident [$($declared:tt)*] [$($given:tt)*] [$($passed:tt)*]
        $number:ident $kind:ident $($rest:tt)*) => {
        function! { $c $name $result
            [$($declared)* _: $kind,]
            [$($given)* $number: $kind,]
            [$($passed)* $number,]
            $($rest)* }
    };
    ($c:ident $name:ident $result:ident [$($declared:tt)*] [$($given:tt)*] [$($passed:tt)*]) => {
        pub fn $name($($given)*) -> $result {
            extern "C" {
                fn $c($($declared)*) -> $result;
            }
            unsafe { $c($($passed)*) }
        }
    };
}

library! {
    plug_crc8 as crc8(crc: u8, bytes: read) -> u8;
    plug_crc16 as crc16(crc: u16, bytes: read) -> u16;
    plug_chip_run as chip_run(number: read, events: read, image: write, replies: write) -> u32;
    plug_chip_power_up as chip_power_up(number: read, state: write) -> u32;
    plug_chip_events as chip_events(state: write, events: read, image: write, replies: write) -> u32;
    plug_walk as walk(image: read, page: u32, answer: write) -> u32;
    plug_page as page(image: read, page: u32, buffer: write) -> u32;
    plug_free_page as free_page(image: read, other: u32, answer: write) -> u32;
    plug_update as update(image: write, number: read, new_page: read, page: u32, events: u32, answer: write) -> u32;
    plug_update_quick as update_quick(image: write, number: read, new_page: read, page: u32, events: u32, answer: write) -> u32;
    plug_number_run as number_run(replies: read, events: write, answer: write) -> u32;
    plug_number_start as number_start(state: write) -> u32;
    plug_number_call as number_call(state: write, reply: u32, answer: write) -> u32;
    plug_page_run as page_run(page: u32, replies: read, events: write, buffer: write, answer: write) -> u32;
    plug_page_start as page_start(page: u32, state: write) -> u32;
    plug_page_call as page_call(state: write, reply: u32, buffer: write, answer: write) -> u32;
    plug_publisher_run as publisher_run(image: read, new_page: read, page: u32, replies: read, events: write, answer: write) -> u32;
    plug_publisher_run_quick as publisher_run_quick(image: read, new_page: read, page: u32, replies: read, events: write, answer: write) -> u32;
    plug_publisher_start as publisher_start(image: read, new_page: read, page: u32, state: write, answer: write) -> u32;
    plug_publisher_start_quick as publisher_start_quick(image: read, new_page: read, page: u32, state: write, answer: write) -> u32;
    plug_publisher_call as publisher_call(state: write, reply: u32, answer: write) -> u32;
    plug_sheet_write as sheet_write(number: read, image: read, sheet: write) -> u32;
    plug_sheet_read as sheet_read(sheet: read, number: write, image: write) -> u32;
    plug_list as list(sheet: read, text: write, answer: write) -> u32;
    plug_variation as variation(image: read, latitude: i32, column: u32, answer: write) -> u32;
    plug_sheet_variation as sheet_variation(sheet: read, latitude: i32, column: u32, answer: write) -> u32;
    plug_change as change(old: i32, new: i32, answer: write) -> u32;
}
