//! What callgrind and objdump write.

use std::collections::BTreeMap;

/// The functions of a program, by where they begin.
pub struct Code(Vec<(u64, String)>);

impl Code {
    /// Reads what objdump writes: a line `ADDRESS <FUNCTION>:` for each function.
    pub fn read(text: &str) -> Code {
        let function = |line: &str| {
            let (address, name) = line.strip_suffix(">:")?.split_once(" <")?;
            Some((u64::from_str_radix(address, 16).ok()?, name.to_string()))
        };
        Code(text.lines().filter_map(function).collect())
    }
}

/// All instructions of a part, by callgrind's file.
pub fn total(text: &str) -> u64 {
    let line = text.lines().find_map(|line| line.strip_prefix("summary: "));
    line.and_then(|count| count.parse().ok()).expect("a summary")
}

/// How often each instruction of a program ran, by its address.
pub struct Runs(BTreeMap<u64, u64>);

impl Runs {
    /// Reads callgrind's file of a part. A line `ob=` names the program or a library. A line `0x..` is an
    /// instruction: its address, its line, how often it ran. A line `calls=` and the next are of a function
    /// that is called.
    pub fn read(text: &str) -> Runs {
        let mut runs = BTreeMap::new();
        let mut is_program = false;
        let mut lines = text.lines();
        while let Some(line) = lines.next() {
            if let Some(object) = line.strip_prefix("ob=") {
                is_program = object.ends_with("/bench");
            } else if line.starts_with("calls=") {
                lines.next();
            } else if let Some(line) = line.strip_prefix("0x").filter(|_| is_program) {
                let words: Vec<&str> = line.split(' ').collect();
                let [address, _, count] = words[..] else { panic!("no count: {line}") };
                let address = u64::from_str_radix(address, 16).expect("an address");
                *runs.entry(address).or_insert(0) += count.parse::<u64>().expect("a count");
            }
        }
        Runs(runs)
    }

    /// How often functions of such a name were called: how often the first instruction of each ran.
    pub fn calls(&self, code: &Code, is_it: impl Fn(&str) -> bool) -> u64 {
        let functions = code.0.iter().filter(|(_, name)| is_it(name));
        functions.filter_map(|(address, _)| self.0.get(address)).sum()
    }
}
