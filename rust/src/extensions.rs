//! M and A arithmetic on register values.
//!
//! Word forms use the low 32 bits of an operand and sign-extend the result. An atomic operation
//! gives the old memory value, which the instruction returns, and the new one, which the host
//! stores.
//!
//! ```
//! use leavnnjar::extensions::{amomax_w, div, mulhu};
//!
//! assert_eq!(mulhu(u64::MAX, u64::MAX), u64::MAX - 1);
//! assert_eq!(div(7, 0), u64::MAX);
//! // Memory holds -1: the instruction returns it sign-extended, and 1 is the greater.
//! assert_eq!(amomax_w(0xFFFF_FFFF, 1), (u64::MAX, 1));
//! ```

use crate::door;

/// The two values of a word operation. The library gives the new one as a number below 2^32.
#[inline]
fn amo_w(
    operation: extern "C" fn(u32, u64, &mut [u64; 2]),
    memory_value: u32,
    src: u64,
) -> (u64, u32) {
    let mut out = [0; 2];
    operation(memory_value, src, &mut out);
    (out[0], out[1] as u32)
}

/// The two values of a doubleword operation.
#[inline]
fn amo_d(
    operation: extern "C" fn(u64, u64, &mut [u64; 2]),
    memory_value: u64,
    src: u64,
) -> (u64, u64) {
    let mut out = [0; 2];
    operation(memory_value, src, &mut out);
    (out[0], out[1])
}

/// The old word and `src`'s low 32 bits.
#[inline]
pub fn amoswap_w(memory_value: u32, src: u64) -> (u64, u32) {
    amo_w(door::rv_amoswap_w, memory_value, src)
}

/// The old word and the sum of it and `src`.
#[inline]
pub fn amoadd_w(memory_value: u32, src: u64) -> (u64, u32) {
    amo_w(door::rv_amoadd_w, memory_value, src)
}

/// The old word and the exclusive or of it and `src`.
#[inline]
pub fn amoxor_w(memory_value: u32, src: u64) -> (u64, u32) {
    amo_w(door::rv_amoxor_w, memory_value, src)
}

/// The old word and the and of it and `src`.
#[inline]
pub fn amoand_w(memory_value: u32, src: u64) -> (u64, u32) {
    amo_w(door::rv_amoand_w, memory_value, src)
}

/// The old word and the or of it and `src`.
#[inline]
pub fn amoor_w(memory_value: u32, src: u64) -> (u64, u32) {
    amo_w(door::rv_amoor_w, memory_value, src)
}

/// The old word and the signed minimum of it and `src`.
#[inline]
pub fn amomin_w(memory_value: u32, src: u64) -> (u64, u32) {
    amo_w(door::rv_amomin_w, memory_value, src)
}

/// The old word and the signed maximum of it and `src`.
#[inline]
pub fn amomax_w(memory_value: u32, src: u64) -> (u64, u32) {
    amo_w(door::rv_amomax_w, memory_value, src)
}

/// The old word and the unsigned minimum of it and `src`.
#[inline]
pub fn amominu_w(memory_value: u32, src: u64) -> (u64, u32) {
    amo_w(door::rv_amominu_w, memory_value, src)
}

/// The old word and the unsigned maximum of it and `src`.
#[inline]
pub fn amomaxu_w(memory_value: u32, src: u64) -> (u64, u32) {
    amo_w(door::rv_amomaxu_w, memory_value, src)
}

/// The old doubleword and `src`.
#[inline]
pub fn amoswap_d(memory_value: u64, src: u64) -> (u64, u64) {
    amo_d(door::rv_amoswap_d, memory_value, src)
}

/// The old doubleword and the sum of it and `src`.
#[inline]
pub fn amoadd_d(memory_value: u64, src: u64) -> (u64, u64) {
    amo_d(door::rv_amoadd_d, memory_value, src)
}

/// The old doubleword and the exclusive or of it and `src`.
#[inline]
pub fn amoxor_d(memory_value: u64, src: u64) -> (u64, u64) {
    amo_d(door::rv_amoxor_d, memory_value, src)
}

/// The old doubleword and the and of it and `src`.
#[inline]
pub fn amoand_d(memory_value: u64, src: u64) -> (u64, u64) {
    amo_d(door::rv_amoand_d, memory_value, src)
}

/// The old doubleword and the or of it and `src`.
#[inline]
pub fn amoor_d(memory_value: u64, src: u64) -> (u64, u64) {
    amo_d(door::rv_amoor_d, memory_value, src)
}

/// The old doubleword and the signed minimum of it and `src`.
#[inline]
pub fn amomin_d(memory_value: u64, src: u64) -> (u64, u64) {
    amo_d(door::rv_amomin_d, memory_value, src)
}

/// The old doubleword and the signed maximum of it and `src`.
#[inline]
pub fn amomax_d(memory_value: u64, src: u64) -> (u64, u64) {
    amo_d(door::rv_amomax_d, memory_value, src)
}

/// The old doubleword and the unsigned minimum of it and `src`.
#[inline]
pub fn amominu_d(memory_value: u64, src: u64) -> (u64, u64) {
    amo_d(door::rv_amominu_d, memory_value, src)
}

/// The old doubleword and the unsigned maximum of it and `src`.
#[inline]
pub fn amomaxu_d(memory_value: u64, src: u64) -> (u64, u64) {
    amo_d(door::rv_amomaxu_d, memory_value, src)
}

/// The signed quotient of words. By 0: 2^64 - 1. Least by -1: the least.
#[inline]
pub fn divw(lhs: u64, rhs: u64) -> u64 {
    door::rv_divw(lhs, rhs)
}

/// The signed remainder of words. By 0: the left word. Least by -1: 0.
#[inline]
pub fn remw(lhs: u64, rhs: u64) -> u64 {
    door::rv_remw(lhs, rhs)
}

/// The unsigned quotient of words, sign-extended. By 0: 2^64 - 1.
#[inline]
pub fn divuw(lhs: u64, rhs: u64) -> u64 {
    door::rv_divuw(lhs, rhs)
}

/// The unsigned remainder of words, sign-extended. By 0: the left word.
#[inline]
pub fn remuw(lhs: u64, rhs: u64) -> u64 {
    door::rv_remuw(lhs, rhs)
}

/// The low 64 bits of the product.
#[inline]
pub fn mul(lhs: u64, rhs: u64) -> u64 {
    door::rv_mul(lhs, rhs)
}

/// The upper 64 bits of the product, both operands signed.
#[inline]
pub fn mulh(lhs: u64, rhs: u64) -> u64 {
    door::rv_mulh(lhs, rhs)
}

/// The upper 64 bits of the product, both operands unsigned.
#[inline]
pub fn mulhu(lhs: u64, rhs: u64) -> u64 {
    door::rv_mulhu(lhs, rhs)
}

/// The upper 64 bits of the product, left signed and right unsigned.
#[inline]
pub fn mulhsu(lhs: u64, rhs: u64) -> u64 {
    door::rv_mulhsu(lhs, rhs)
}

/// The signed quotient, truncated toward zero. By 0: 2^64 - 1. Least by -1: the least.
#[inline]
pub fn div(lhs: u64, rhs: u64) -> u64 {
    door::rv_div(lhs, rhs)
}

/// The unsigned quotient. By 0: 2^64 - 1.
#[inline]
pub fn divu(lhs: u64, rhs: u64) -> u64 {
    door::rv_divu(lhs, rhs)
}

/// The signed remainder, with the left operand's sign. By 0: the left operand. Least by -1: 0.
#[inline]
pub fn rem(lhs: u64, rhs: u64) -> u64 {
    door::rv_rem(lhs, rhs)
}

/// The unsigned remainder. By 0: the left operand.
#[inline]
pub fn remu(lhs: u64, rhs: u64) -> u64 {
    door::rv_remu(lhs, rhs)
}

/// The low 32 bits of the product, sign-extended.
#[inline]
pub fn mulw(lhs: u64, rhs: u64) -> u64 {
    door::rv_mulw(lhs, rhs)
}
