/// Something that runs scripts: the code, and how many bytes of the output it wrote.
pub trait Engine {
    fn run(&self, script: &[u8], memory: &mut [u8], output: &mut [u8]) -> (u32, u64);
}

/// The proved engine.
pub struct First(pub hub::Run);

impl Engine for First {
    fn run(&self, script: &[u8], memory: &mut [u8], output: &mut [u8]) -> (u32, u64) {
        (self.0)(script, memory, output)
    }
}

/// The engine in plain Rust.
pub struct Second;

impl Engine for Second {
    fn run(&self, script: &[u8], memory: &mut [u8], output: &mut [u8]) -> (u32, u64) {
        let (code, told) = script::run(script, memory, output.len());
        output[..told.len()].copy_from_slice(&told);
        (code, told.len() as u64)
    }
}

/// The engine in Rust that is written to be fast.
pub struct Fast;

impl Engine for Fast {
    fn run(&self, script: &[u8], memory: &mut [u8], output: &mut [u8]) -> (u32, u64) {
        let (code, written) = fast::run(script, memory, output);
        (code, written as u64)
    }
}
