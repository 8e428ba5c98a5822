//! What the original no longer decides: the answers that customers' requests changed since, each by
//! the words of its request. Of the CSR file that is one read, and writes of one register with some
//! values; all else is asked of the original. Of translations requests change the most: they are read a
//! second time as a whole, and beside it stands which calls the original still decides.

pub mod csr;
pub mod mmu;
