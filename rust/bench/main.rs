//! Times the library's calls beside the original's, in one process and on the same inputs.
//!
//! A call of the library is one to an outside function, which the compiler cannot look into. The
//! original is timed both ways: behind such a call, and inlined, which is the best that its own host
//! can have.

#[macro_use]
mod ways;

mod csr;
mod extensions;
mod gpr;
mod mmu;
mod system_bus;

fn main() {
    ways::head();
    mmu::rows();
    gpr::rows();
    csr::rows();
    system_bus::rows();
    extensions::rows();
}
