//! What the static library exports, in the original's order.
//!
//! A number passes as itself, and a lent array or number as one pointer, which is how `extern "C"`
//! passes a Rust reference. A lent slice passes as pointer and length: those functions are declared
//! at the end.

use crate::layout::{CSR_WORDS, GPR_WORDS, MMU_WORDS};

// Sound, and every function safe to call, because the library's functions are proved for any input:
// they return, they touch nothing but what is lent here, and they write only what is lent as
// `&mut`. What no proof covers is that these lines say the same as the library's own: `../signatures`
// holds them to it.
unsafe extern "C" {
    // Decode: a word.
    pub safe fn rv_opcode(word: u32) -> u32;
    pub safe fn rv_rd(word: u32) -> usize;
    pub safe fn rv_rs1(word: u32) -> usize;
    pub safe fn rv_rs2(word: u32) -> usize;
    pub safe fn rv_funct3(word: u32) -> u32;
    pub safe fn rv_funct7(word: u32) -> u32;
    pub safe fn rv_imm_i(word: u32) -> i64;
    pub safe fn rv_imm_s(word: u32) -> i64;
    pub safe fn rv_imm_b(word: u32) -> i64;
    pub safe fn rv_imm_u(word: u32) -> i64;
    pub safe fn rv_imm_j(word: u32) -> i64;
    pub safe fn rv_csr_addr(word: u32) -> u32;
    pub safe fn rv_funct5(word: u32) -> u32;
    pub safe fn rv_aq(word: u32) -> bool;
    pub safe fn rv_rl(word: u32) -> bool;

    // Decode: a halfword.
    pub safe fn rv_c_quadrant(half: u16) -> u16;
    pub safe fn rv_c_funct3(half: u16) -> u16;
    pub safe fn rv_c_rs2_prime(half: u16) -> usize;
    pub safe fn rv_c_rs1_prime(half: u16) -> usize;
    pub safe fn rv_c_rd(half: u16) -> usize;
    pub safe fn rv_c_rs2(half: u16) -> usize;

    pub safe fn rv_sign_extend(value: i64, bits: u32, out: &mut i64) -> u32;

    // Extensions: M.
    pub safe fn rv_mul(lhs: u64, rhs: u64) -> u64;
    pub safe fn rv_mulh(lhs: u64, rhs: u64) -> u64;
    pub safe fn rv_mulhu(lhs: u64, rhs: u64) -> u64;
    pub safe fn rv_mulhsu(lhs: u64, rhs: u64) -> u64;
    pub safe fn rv_div(lhs: u64, rhs: u64) -> u64;
    pub safe fn rv_divu(lhs: u64, rhs: u64) -> u64;
    pub safe fn rv_rem(lhs: u64, rhs: u64) -> u64;
    pub safe fn rv_remu(lhs: u64, rhs: u64) -> u64;
    pub safe fn rv_mulw(lhs: u64, rhs: u64) -> u64;
    pub safe fn rv_divw(lhs: u64, rhs: u64) -> u64;
    pub safe fn rv_divuw(lhs: u64, rhs: u64) -> u64;
    pub safe fn rv_remw(lhs: u64, rhs: u64) -> u64;
    pub safe fn rv_remuw(lhs: u64, rhs: u64) -> u64;

    // Extensions: A. `out` is what the instruction returns, then the new memory value.
    pub safe fn rv_amoswap_w(memory_value: u32, src: u64, out: &mut [u64; 2]);
    pub safe fn rv_amoadd_w(memory_value: u32, src: u64, out: &mut [u64; 2]);
    pub safe fn rv_amoxor_w(memory_value: u32, src: u64, out: &mut [u64; 2]);
    pub safe fn rv_amoand_w(memory_value: u32, src: u64, out: &mut [u64; 2]);
    pub safe fn rv_amoor_w(memory_value: u32, src: u64, out: &mut [u64; 2]);
    pub safe fn rv_amomin_w(memory_value: u32, src: u64, out: &mut [u64; 2]);
    pub safe fn rv_amomax_w(memory_value: u32, src: u64, out: &mut [u64; 2]);
    pub safe fn rv_amominu_w(memory_value: u32, src: u64, out: &mut [u64; 2]);
    pub safe fn rv_amomaxu_w(memory_value: u32, src: u64, out: &mut [u64; 2]);
    pub safe fn rv_amoswap_d(memory_value: u64, src: u64, out: &mut [u64; 2]);
    pub safe fn rv_amoadd_d(memory_value: u64, src: u64, out: &mut [u64; 2]);
    pub safe fn rv_amoxor_d(memory_value: u64, src: u64, out: &mut [u64; 2]);
    pub safe fn rv_amoand_d(memory_value: u64, src: u64, out: &mut [u64; 2]);
    pub safe fn rv_amoor_d(memory_value: u64, src: u64, out: &mut [u64; 2]);
    pub safe fn rv_amomin_d(memory_value: u64, src: u64, out: &mut [u64; 2]);
    pub safe fn rv_amomax_d(memory_value: u64, src: u64, out: &mut [u64; 2]);
    pub safe fn rv_amominu_d(memory_value: u64, src: u64, out: &mut [u64; 2]);
    pub safe fn rv_amomaxu_d(memory_value: u64, src: u64, out: &mut [u64; 2]);

    // Registers: x0 to x31, pc, f0 to f31.
    pub safe fn rv_gpr_new(regs: &mut [u64; GPR_WORDS], pc: u64);
    pub safe fn rv_gpr_read(regs: &[u64; GPR_WORDS], reg: usize, out: &mut u64) -> u32;
    pub safe fn rv_gpr_write(regs: &mut [u64; GPR_WORDS], reg: usize, value: u64) -> u32;
    pub safe fn rv_gpr_read_masked(regs: &[u64; GPR_WORDS], reg: u8) -> u64;
    pub safe fn rv_gpr_write_masked(regs: &mut [u64; GPR_WORDS], reg: u8, value: u64);
    pub safe fn rv_gpr_read_f(regs: &[u64; GPR_WORDS], reg: usize, out: &mut u64) -> u32;
    pub safe fn rv_gpr_write_f(regs: &mut [u64; GPR_WORDS], reg: usize, value: u64) -> u32;
    pub safe fn rv_gpr_read_f32(regs: &[u64; GPR_WORDS], reg: usize, out: &mut u32) -> u32;
    pub safe fn rv_gpr_write_f32(regs: &mut [u64; GPR_WORDS], reg: usize, value: u32) -> u32;

    // CSR file: the original's fields in their order. Of a privilege the low two bits count.
    pub safe fn rv_csr_new(csr: &mut [u64; CSR_WORDS]);
    pub safe fn rv_csr_read(
        csr: &[u64; CSR_WORDS],
        address: u32,
        privilege: u64,
        out: &mut u64,
    ) -> u32;
    pub safe fn rv_csr_write(
        csr: &mut [u64; CSR_WORDS],
        address: u32,
        value: u64,
        privilege: u64,
    ) -> u32;
    pub safe fn rv_csr_pending(csr: &[u64; CSR_WORDS], privilege: u64, out: &mut u64) -> bool;

    // Translation: epoch, load shortcut, store shortcut, slots.
    pub safe fn rv_mmu_new(mmu: &mut [u64; MMU_WORDS]);
    pub safe fn rv_flush(mmu: &mut [u64; MMU_WORDS]);
}

/// The functions that are lent guest memory. As pointer and length a caller could lend what is not
/// his, so these are not safe; each has a form below that takes the slice.
mod lent {
    use crate::layout::MMU_WORDS;

    type Memory = *const u8;
    type MemoryMut = *mut u8;

    unsafe extern "C" {
        // Memory.
        pub fn rv_read_byte(m: Memory, length: usize, address: u64, out: &mut u64) -> u32;
        pub fn rv_read_halfword(m: Memory, length: usize, address: u64, out: &mut u64) -> u32;
        pub fn rv_read_word(m: Memory, length: usize, address: u64, out: &mut u64) -> u32;
        pub fn rv_read_doubleword(m: Memory, length: usize, address: u64, out: &mut u64) -> u32;
        pub fn rv_write_byte(m: MemoryMut, length: usize, address: u64, value: u8) -> u32;
        pub fn rv_write_halfword(m: MemoryMut, length: usize, address: u64, value: u16) -> u32;
        pub fn rv_write_word(m: MemoryMut, length: usize, address: u64, value: u32) -> u32;
        pub fn rv_write_doubleword(m: MemoryMut, length: usize, address: u64, value: u64) -> u32;
        pub fn rv_load_at(
            m: MemoryMut,
            length: usize,
            offset: usize,
            bytes: *const u8,
            count: usize,
        ) -> u32;

        // Translation. The privilege is the hart's, of which the low two bits count, and mstatus the
        // CSR's word; `out` is the address and the read count.
        pub fn rv_translate_fetch(
            mmu: &mut [u64; MMU_WORDS],
            m: Memory,
            length: usize,
            address: u64,
            satp: u64,
            privilege: u64,
            mstatus: u64,
            out: &mut [u64; 2],
        ) -> u32;
        pub fn rv_translate_load(
            mmu: &mut [u64; MMU_WORDS],
            m: Memory,
            length: usize,
            address: u64,
            satp: u64,
            privilege: u64,
            mstatus: u64,
            out: &mut [u64; 2],
        ) -> u32;
        pub fn rv_translate_store(
            mmu: &mut [u64; MMU_WORDS],
            m: Memory,
            length: usize,
            address: u64,
            satp: u64,
            privilege: u64,
            mstatus: u64,
            out: &mut [u64; 2],
        ) -> u32;
        pub fn rv_translate_readable(
            m: Memory,
            length: usize,
            address: u64,
            satp: u64,
            privilege: u64,
            mstatus: u64,
            out: &mut [u64; 2],
        ) -> u32;
    }
}

/// The form of a function that takes slices. The arguments are written as the declaration has them.
macro_rules! takes_slices {
    ($(fn $name:ident($($parameter:ident: $type:ty),*) = ($($argument:expr),*);)*) => {
        $(
            #[inline]
            pub fn $name($($parameter: $type),*) -> u32 {
                // SAFETY: pointer and length are those of a slice that is borrowed until the call
                // returns. The library is proved to touch no byte outside it, for any length and
                // address; to write only through a pointer that comes from a `&mut` slice, which
                // nothing else can see meanwhile; and to keep none.
                unsafe { lent::$name($($argument),*) }
            }
        )*
    };
}

takes_slices! {
    fn rv_read_byte(memory: &[u8], address: u64, out: &mut u64)
        = (memory.as_ptr(), memory.len(), address, out);
    fn rv_read_halfword(memory: &[u8], address: u64, out: &mut u64)
        = (memory.as_ptr(), memory.len(), address, out);
    fn rv_read_word(memory: &[u8], address: u64, out: &mut u64)
        = (memory.as_ptr(), memory.len(), address, out);
    fn rv_read_doubleword(memory: &[u8], address: u64, out: &mut u64)
        = (memory.as_ptr(), memory.len(), address, out);
    fn rv_write_byte(memory: &mut [u8], address: u64, value: u8)
        = (memory.as_mut_ptr(), memory.len(), address, value);
    fn rv_write_halfword(memory: &mut [u8], address: u64, value: u16)
        = (memory.as_mut_ptr(), memory.len(), address, value);
    fn rv_write_word(memory: &mut [u8], address: u64, value: u32)
        = (memory.as_mut_ptr(), memory.len(), address, value);
    fn rv_write_doubleword(memory: &mut [u8], address: u64, value: u64)
        = (memory.as_mut_ptr(), memory.len(), address, value);
    fn rv_load_at(memory: &mut [u8], offset: usize, bytes: &[u8])
        = (memory.as_mut_ptr(), memory.len(), offset, bytes.as_ptr(), bytes.len());
    fn rv_translate_fetch(
        mmu: &mut [u64; MMU_WORDS], memory: &[u8], address: u64, satp: u64,
        privilege: u64, mstatus: u64, out: &mut [u64; 2]
    ) = (mmu, memory.as_ptr(), memory.len(), address, satp, privilege, mstatus, out);
    fn rv_translate_load(
        mmu: &mut [u64; MMU_WORDS], memory: &[u8], address: u64, satp: u64,
        privilege: u64, mstatus: u64, out: &mut [u64; 2]
    ) = (mmu, memory.as_ptr(), memory.len(), address, satp, privilege, mstatus, out);
    fn rv_translate_store(
        mmu: &mut [u64; MMU_WORDS], memory: &[u8], address: u64, satp: u64,
        privilege: u64, mstatus: u64, out: &mut [u64; 2]
    ) = (mmu, memory.as_ptr(), memory.len(), address, satp, privilege, mstatus, out);
    fn rv_translate_readable(
        memory: &[u8], address: u64, satp: u64, privilege: u64, mstatus: u64, out: &mut [u64; 2]
    ) = (memory.as_ptr(), memory.len(), address, satp, privilege, mstatus, out);
}
