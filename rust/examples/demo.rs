//! How a host uses the library: decode a word, calculate, keep registers and CSRs, choose an
//! interrupt, translate addresses, and handle a refusal.

use std::error::Error;

use leavnnjar::Refusal;
use leavnnjar::csr::{
    Csr, MIDELEG, MIE, MIP, MIP_MTIP, MIP_SSIP, MIP_STIP, MSTATUS, MSTATUS_MPRV, MSTATUS_SUM,
    PrivMode, SSTATUS,
};
use leavnnjar::decode::Instruction;
use leavnnjar::extensions::{amomax_w, div, mulhu};
use leavnnjar::gpr::Gpr;
use leavnnjar::mmu::{Mmu, Translation, TranslationError};
use leavnnjar::system_bus::FlatMemory;

fn main() -> Result<(), Box<dyn Error>> {
    decode();
    arithmetic();
    registers()?;
    csrs()?;
    translation()?;
    Ok(())
}

fn decode() {
    let word = Instruction(0xFFF0_0093);
    println!("decode {:#010x}, which is addi x1, x0, -1", word.0);
    println!("  opcode {:#x}", word.opcode());
    println!("  funct3 {}", word.funct3());
    println!("  rd     x{}", word.rd());
    println!("  rs1    x{}", word.rs1());
    println!("  imm_i  {}", word.imm_i());
}

fn arithmetic() {
    println!("arithmetic");
    println!(
        "  mulhu of 2^64 - 1 twice  {:#x}",
        mulhu(u64::MAX, u64::MAX)
    );

    // RISC-V does not trap here: the quotient is all ones.
    println!("  div of 7 by 0            {:#x}", div(7, 0));

    // An atomic operation gives what the instruction returns and what the host stores.
    let (returned, new) = amomax_w(0xFFFF_FFFF, 1);
    println!("  amomax_w of -1 and 1     returns {returned:#x}, stores {new}");
}

fn registers() -> Result<(), Refusal> {
    println!("registers");
    let mut regs = Gpr::new(0x8000_0000);
    println!("  pc at the start          {:#x}", regs.pc());

    regs.write(10, 42)?;
    println!("  x10 after writing 42     {}", regs.read(10)?);

    regs.write(0, 42)?;
    println!("  x0 after writing 42      {}", regs.read(0)?);

    // A 32-bit float is kept with ones above it; a register without them reads as NaN.
    regs.write_f32(1, 1.5_f32.to_bits())?;
    println!("  f1 holding 1.5           {:#x}", regs.read_f(1)?);
    println!(
        "  f1 read back             {}",
        f32::from_bits(regs.read_f32(1)?)
    );
    regs.write_f(1, 1.5_f64.to_bits())?;
    println!(
        "  f1 holding a double      reads {} as 32 bits",
        f32::from_bits(regs.read_f32(1)?)
    );

    // There is no register 32. The original would panic; here the host hears of it and nothing is
    // changed.
    let before = regs.clone();
    match regs.write(32, 7) {
        Ok(()) => println!("  write to x32             done"),
        Err(refusal) => println!(
            "  write to x32             refused, no. {}: {refusal}",
            refusal.number()
        ),
    }
    println!("  registers unchanged      {}", regs == before);
    Ok(())
}

fn csrs() -> Result<(), Refusal> {
    println!("CSR file");
    let mut csr = Csr::new();

    // Not every bit may be written, and bit 63 says that one of FS, XS and VS is dirty.
    csr.write_register(MSTATUS, u64::MAX, PrivMode::M)?;
    println!(
        "  mstatus after all ones   {:#x}",
        csr.read_register(MSTATUS, PrivMode::M)?
    );
    println!(
        "  sstatus then             {:#x}",
        csr.read_register(SSTATUS, PrivMode::S)?
    );

    // The software and the timer interrupt of S-mode, both left to S-mode.
    let both = MIP_SSIP | MIP_STIP;
    csr.write_register(MIP, both, PrivMode::M)?;
    csr.write_register(MIE, both, PrivMode::M)?;
    csr.write_register(MIDELEG, both, PrivMode::M)?;
    for mode in [PrivMode::U, PrivMode::M] {
        match csr.pending_interrupt(mode) {
            Some(bit) => println!("  interrupt in {mode:?}           {bit}"),
            None => println!("  interrupt in {mode:?}           none"),
        }
    }

    // The timer of M-mode is a device: the host raises its bit, which no CSR write reaches.
    csr.write_register(MIE, both | MIP_MTIP, PrivMode::M)?;
    csr.raise_interrupt(MIP_MTIP);
    match csr.pending_interrupt(PrivMode::M) {
        Some(bit) => println!("  timer raised, in M       {bit}"),
        None => println!("  timer raised, in M       none"),
    }

    // There is no CSR 0x7ff.
    let before = csr.clone();
    match csr.write_register(0x7FF, 7, PrivMode::M) {
        Ok(()) => println!("  write to 0x7ff           done"),
        Err(refusal) => println!(
            "  write to 0x7ff           refused, no. {}: {refusal}",
            refusal.number()
        ),
    }
    println!("  CSR file unchanged       {}", csr == before);
    Ok(())
}

fn translation() -> Result<(), Refusal> {
    println!("memory and translation");
    // Memory is the host's own; a call borrows it. Here three tables map page 0 to page 5.
    let mut bytes = [0; 16384];
    let mut memory = FlatMemory::new(&mut bytes);
    memory.write_doubleword(0x1000, 0x801)?;
    memory.write_doubleword(0x2000, 0xC01)?;
    memory.write_doubleword(0x3000, 0x14CF)?;

    // The hart is in S-mode, and its mstatus is 0.
    let satp = 0x8000_0000_0000_0001;
    let mut mmu = Mmu::new();
    let shown = |answer: Result<Translation, TranslationError>| match answer {
        Ok(to) => format!("{:#x}, {} entries read", to.address, to.reads),
        Err(error) => error.to_string(),
    };
    let load = |mmu: &mut Mmu, memory: &[u8]| {
        shown(mmu.translate_load(0x123, satp, PrivMode::S, 0, memory))
    };
    println!(
        "  load from 0x123          {}",
        load(&mut mmu, memory.bytes())
    );
    println!(
        "  again                    {}",
        load(&mut mmu, memory.bytes())
    );

    // Now page 0 is mapped to page 6. The cache does not hear of it, and answers as before: a host
    // flushes.
    memory.write_doubleword(0x3000, 0x18CF)?;
    println!(
        "  entry changed: stale     {}",
        load(&mut mmu, memory.bytes())
    );
    mmu.flush();
    println!(
        "  flushed: cured           {}",
        load(&mut mmu, memory.bytes())
    );

    // Now it is not mapped.
    memory.write_doubleword(0x3000, 0)?;
    mmu.flush();
    println!(
        "  entry cleared, flushed   {}",
        load(&mut mmu, memory.bytes())
    );

    // 12 is no power of two.
    let before = mmu.clone();
    println!("  memory of 12 bytes       {}", load(&mut mmu, &[0; 12]));
    println!("  state unchanged          {}", mmu == before);

    // Now it is a page of user mode. Each call says for whom it is, and no flush is needed between.
    memory.write_doubleword(0x3000, 0x14DF)?;
    mmu.flush();
    for (who, priv_mode, mstatus) in [
        ("user page, in U", PrivMode::U, 0),
        ("user page, in S", PrivMode::S, 0),
        ("in S with SUM", PrivMode::S, MSTATUS_SUM),
        ("in M: not paged", PrivMode::M, 0),
        ("in M with MPRV, MPP U", PrivMode::M, MSTATUS_MPRV),
    ] {
        let answer = mmu.translate_load(0x123, satp, priv_mode, mstatus, memory.bytes());
        println!("  {who:24} {}", shown(answer));
    }

    // What the manual refuses faults: an address whose upper bits are no copies of bit 38, for which no
    // entry is read, and a page whose A is clear.
    memory.write_doubleword(0x3000, 0x149F)?;
    mmu.flush();
    for (what, address) in [("bit 39 set", 1 << 39 | 0x123), ("page without A", 0x123)] {
        let answer = mmu.translate_load(address, satp, PrivMode::U, 0, memory.bytes());
        println!("  {what:24} {}", shown(answer));
    }
    Ok(())
}
