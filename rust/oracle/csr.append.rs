// The comparison reads and sets the whole state, in the order of the fields. Each field is named
// here, so that one that the original gains does not go unseen.
use crate::layout::CSR_WORDS;

impl Csr {
    pub fn oracle_words(&self) -> [u64; CSR_WORDS] {
        let Self {
            mstatus,
            misa,
            medeleg,
            mideleg,
            mie,
            mtvec,
            mcounteren,
            mcountinhibit,
            mscratch,
            mepc,
            mcause,
            mtval,
            mip,
            menvcfg,
            stvec,
            scounteren,
            senvcfg,
            sscratch,
            sepc,
            scause,
            stval,
            satp,
            hart_id,
            pmpcfg,
            pmpaddr,
            cycle,
            instret,
            time,
            fcsr,
            mhpmevent,
        } = self;

        let machine = [
            *mstatus,
            *misa,
            *medeleg,
            *mideleg,
            *mie,
            *mtvec,
            *mcounteren,
            *mcountinhibit,
            *mscratch,
            *mepc,
            *mcause,
            *mtval,
            *mip,
            *menvcfg,
        ];
        let supervisor = [
            *stvec,
            *scounteren,
            *senvcfg,
            *sscratch,
            *sepc,
            *scause,
            *stval,
            *satp,
        ];

        let mut words = [0; CSR_WORDS];
        words[..14].copy_from_slice(&machine);
        words[14..22].copy_from_slice(&supervisor);
        words[22] = *hart_id;
        words[23..39].copy_from_slice(pmpcfg);
        words[39..103].copy_from_slice(pmpaddr);
        words[103..107].copy_from_slice(&[*cycle, *instret, *time, *fcsr]);
        words[107..].copy_from_slice(mhpmevent);
        words
    }

    pub fn oracle_from(words: &[u64; CSR_WORDS]) -> Self {
        let mut csr = Self {
            mstatus: words[0],
            misa: words[1],
            medeleg: words[2],
            mideleg: words[3],
            mie: words[4],
            mtvec: words[5],
            mcounteren: words[6],
            mcountinhibit: words[7],
            mscratch: words[8],
            mepc: words[9],
            mcause: words[10],
            mtval: words[11],
            mip: words[12],
            menvcfg: words[13],
            stvec: words[14],
            scounteren: words[15],
            senvcfg: words[16],
            sscratch: words[17],
            sepc: words[18],
            scause: words[19],
            stval: words[20],
            satp: words[21],
            hart_id: words[22],
            pmpcfg: [0; 16],
            pmpaddr: [0; 64],
            cycle: words[103],
            instret: words[104],
            time: words[105],
            fcsr: words[106],
            mhpmevent: [0; 29],
        };
        csr.pmpcfg.copy_from_slice(&words[23..39]);
        csr.pmpaddr.copy_from_slice(&words[39..103]);
        csr.mhpmevent.copy_from_slice(&words[107..]);
        csr
    }
}
