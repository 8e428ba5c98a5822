//! The text of the list, and the account that a replay must give of it.

use std::fmt::Write;

/// A word of a state, by its place.
pub type Change = (usize, u64);

pub struct List {
    text: String,
    /// The modules so far, each with its letter and its answers.
    modules: Vec<(&'static str, char, usize)>,
}

/// `SEED` stands for the seed.
const HEAD: &str = "\
Answers of the original, recorded: capsulerun/vpod, commit ec4bd213ac, crates/riscv-core, built with
overflow checks. rust/record made this list, with the seed SEED, and makes the same list again.

A line is one call: the letter of the module and the number of the function, the inputs, '=', and what
the original answered. Of a call on a state there follow ';' and each word of the state that the call
changed, by its place and its new value; every other word stayed as it was. All numbers are
hexadecimal; a signed one is given by its 64 bits. Before the lines of a function a remark has its name
and its columns.

Where a call can be refused or fault, its first answer is document 01's number, 0 where it is done. The
original's CSR file only says that it refuses: there the number is the rule's, 3 for SATP from S-mode
with TVM set and 2 for all else. Where the original panics it has no answer, and nothing is recorded.

Some answers the original no longer decides. A read of sstatus, csr 100, shows SD and UXL, too: there
the value is the rule's, what the original answers for mstatus, under the mask 80000003000de762. A
write of satp, csr 180, with a mode other than 0 and 8 is done and changes nothing. A translation heeds
the privilege, and faults on what the manual refuses: a mode other than 0 and 8, bits 63 to 39 that are
not copies of bit 38, an entry with W and not R or with one of bits 63 to 54, a leaf without A, a store
to one without D. So answer and words are the rule's where it is M's and satp pages; by another mode;
where a leaf entry that it comes to serves it by the rule and not by the original, or the other way
round; and where a walk finds by one and faults by the other, or reads more by one. So are always the
leaf entries of the shortcuts, which the original does not keep.

A call on a state begins with the words that the line before it left. 'new' makes a new state, and
lists every word that is not 0. 'set' is no call: it gives words of the state the values listed.
'!' ends a module: the replay then writes its name and its answers.

Inputs: the edges of each function (the least and greatest of each width, each bit or field alone,
each address and mode, table entries of each kind at each level), and others that are drawn at random.";

impl List {
    pub fn new(seed: u64) -> Self {
        let mut list = Self {
            text: String::new(),
            modules: Vec::new(),
        };
        for line in HEAD.replace("SEED", &format!("{seed:x}")).lines() {
            list.remark(line);
        }
        list
    }

    pub fn text(&self) -> &str {
        &self.text
    }

    /// What the replay writes if nothing differs.
    pub fn account(&self) -> String {
        let mut text = String::new();
        let mut total = 0;
        for (name, _, answers) in &self.modules {
            writeln!(text, "{name}: {answers} answers, 0 differ").expect("a string");
            total += answers;
        }
        text + &format!("total: {total} answers, 0 differ\n0 lines not understood\n")
    }

    pub fn remark(&mut self, text: &str) {
        self.text.push('#');
        if !text.is_empty() {
            self.text.push(' ');
        }
        self.text.push_str(text);
        self.text.push('\n');
    }

    /// The lines that follow are of this module, up to its end.
    pub fn module(&mut self, name: &'static str, letter: char, about: &str) {
        self.modules.push((name, letter, 0));
        self.remark("");
        self.remark(&format!("{name}.rs: {about}"));
    }

    pub fn end(&mut self) {
        let (name, _, _) = *self.module_now();
        self.text.push_str(&format!("! {name}\n"));
    }

    /// A function of the module, with the names of its columns.
    pub fn function(&mut self, number: u64, columns: &str) {
        let (_, letter, _) = self.module_now();
        let remark = format!("{letter}{number:x} {columns}");
        self.remark(&remark);
    }

    pub fn answer(&mut self, number: u64, inputs: &[u64], answers: &[u64], changes: &[Change]) {
        self.line(number, inputs, answers, changes);
        self.module_now().2 += 1;
    }

    /// A line that is no call, and so has no answer.
    pub fn set(&mut self, number: u64, inputs: &[u64], changes: &[Change]) {
        self.line(number, inputs, &[], changes);
    }

    fn line(&mut self, number: u64, inputs: &[u64], answers: &[u64], changes: &[Change]) {
        let (_, letter, _) = *self.module_now();
        let mut line = format!("{letter}{number:x}");
        let mut put = |part: &str| line.push_str(&format!(" {part}"));
        inputs.iter().for_each(|input| put(&format!("{input:x}")));
        put("=");
        answers
            .iter()
            .for_each(|answer| put(&format!("{answer:x}")));
        if !changes.is_empty() {
            put(";");
        }
        for (place, value) in changes {
            put(&format!("{place:x} {value:x}"));
        }
        self.text.push_str(&line);
        self.text.push('\n');
    }

    fn module_now(&mut self) -> &mut (&'static str, char, usize) {
        self.modules.last_mut().expect("a module has begun")
    }
}

/// The words that are not as before, each with its place.
pub fn changed(before: &[u64], after: &[u64]) -> Vec<Change> {
    let differs = |&i: &usize| before[i] != after[i];
    (0..before.len())
        .filter(differs)
        .map(|i| (i, after[i]))
        .collect()
}

/// The words that are not 0, each with its place.
pub fn not_zero(words: &[u64]) -> Vec<Change> {
    changed(&vec![0; words.len()], words)
}
