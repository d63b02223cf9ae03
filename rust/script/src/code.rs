/// Why a script was not run, or not to its end.
#[derive(Clone, Copy, Debug, PartialEq, Eq)]
#[repr(u32)]
pub enum Code {
    Head = 1,
    Journal = 2,
    Policy = 3,
    Cut = 4,
    Call = 5,
    Order = 6,
    List = 7,
    Output = 8,
}

impl Code {
    pub fn number(self) -> u32 {
        self as u32
    }
}
