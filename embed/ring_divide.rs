//! ring_divide.h for Rust: the structs and functions of the static library, with a slice wherever C has a pointer and a length. Each is
//! safe to call: the library tests all that it is handed, and writes to nothing but the lists that it is lent.

// A program calls some of them.
#![allow(dead_code)]

/// A row of the table.
#[repr(C)]
#[derive(Clone, Copy, PartialEq, Debug)]
pub struct Row {
    pub code: u64,
    pub corners: u64,
    pub k: u64,
    pub marked: u64,
    pub cuts: u64,
    pub pieces: u64,
    pub turned: u64,
    pub area: u64,
    pub nodes: u64,
    pub cells: u64,
}

/// The smallest choice of a ring's points that is still refused.
#[repr(C)]
#[derive(Clone, Copy, PartialEq, Debug)]
pub struct Smallest {
    pub code: u64,
    pub refusal: u64,
    pub choice: u64,
    pub points: u64,
}

/// The record of wear's answer.
#[repr(C)]
#[derive(Clone, Copy, PartialEq, Debug)]
pub struct Wear {
    pub code: u64,
    pub total: u64,
    pub highest: u64,
    pub rings: u64,
}

/// Of each line a function that calls the library's function of that name. The arguments are gone through one by one, each
/// written three times: as our function takes it, as the library's declares it, and as it is handed over.
macro_rules! library {
    ($(fn $name:ident($($argument:tt)*) -> $answer:ty;)*) => {
        $(library!(@ $name $answer, [] [] [] $($argument)*,);)*
    };
    (@ $name:ident $answer:ty, [$($ours:tt)*] [$($theirs:tt)*] [$($handed:tt)*]) => {
        pub fn $name($($ours)*) -> $answer {
            extern "C" {
                fn $name($($theirs)*) -> $answer;
            }
            // Each pointer comes with the length of its own list, which outlives the call.
            unsafe { $name($($handed)*) }
        }
    };
    (@ $name:ident $answer:ty, [$($ours:tt)*] [$($theirs:tt)*] [$($handed:tt)*] $list:ident: &[$t:ty], $($rest:tt)*) => {
        library!(@ $name $answer, [$($ours)* $list: &[$t],] [$($theirs)* _: *const $t, _: usize,]
            [$($handed)* $list.as_ptr(), $list.len(),] $($rest)*);
    };
    (@ $name:ident $answer:ty, [$($ours:tt)*] [$($theirs:tt)*] [$($handed:tt)*] $list:ident: &mut [$t:ty], $($rest:tt)*) => {
        library!(@ $name $answer, [$($ours)* $list: &mut [$t],] [$($theirs)* _: *mut $t, _: usize,]
            [$($handed)* $list.as_mut_ptr(), $list.len(),] $($rest)*);
    };
    (@ $name:ident $answer:ty, [$($ours:tt)*] [$($theirs:tt)*] [$($handed:tt)*] $number:ident: $t:ty, $($rest:tt)*) => {
        library!(@ $name $answer, [$($ours)* $number: $t,] [$($theirs)* _: $t,] [$($handed)* $number,] $($rest)*);
    };
}

library! {
    fn ring_divide(ring: &[i32], chain: &[i32], size: u32,
        nodes: &mut [f64], node_count: usize, rims: &mut [u8], cells: &mut [u32], cell_count: usize) -> Row;

    fn ring_divide_marked(ring: &[i32], kinds: &[u8], snaps: &[f64], outline: &[i32], loops: &[u32], size: u32,
        nodes: &mut [f64], node_count: usize, rims: &mut [u8], cells: &mut [u32], cell_count: usize) -> Row;

    fn ring_divide_set(corner: f64, least: f64, greatest: f64, cuts: u32, share: f64, ring: &[i32], chain: &[i32], size: u32,
        nodes: &mut [f64], node_count: usize, rims: &mut [u8], cells: &mut [u32], cell_count: usize) -> Row;

    fn ring_divide_marked_set(corner: f64, least: f64, greatest: f64, cuts: u32, share: f64,
        ring: &[i32], kinds: &[u8], snaps: &[f64], outline: &[i32], loops: &[u32], size: u32,
        nodes: &mut [f64], node_count: usize, rims: &mut [u8], cells: &mut [u32], cell_count: usize) -> Row;

    fn ring_divide_practice(ring: &[i32], chain: &[i32], size: u32,
        nodes: &mut [f64], node_count: usize, rims: &mut [u8], cells: &mut [u32], cell_count: usize) -> Row;

    fn smallest_refused(ring: &[i32], chain: &[i32], size: u32) -> Smallest;

    fn blocks_write(ring: &[i32], chain: &[i32], size: u32, number: u32, out: &mut [u8]) -> u64;

    fn node_sheet(nodes: &[f64], node_count: usize, out: &mut [u8]) -> u64;

    fn wear_add(record: &mut [u8], code: u64, cuts: u64) -> Wear;

    fn ring_root_bits(bits: u64) -> u64;
}
