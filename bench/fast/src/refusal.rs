/// Why something was refused.
#[derive(Clone, Copy, Debug, PartialEq, Eq)]
#[repr(u8)]
pub enum Refusal {
    ReadingStopped = 10,
    ChainRefused = 11,
    ChainUnfinished = 12,
    ChainTooLong = 13,
    ChainOverSpare = 14,
    AnswersTooShort = 15,
    ChainMoment = 16,
    OrderNumber = 21,
    Amount = 22,
    DebitUnknown = 23,
    CreditUnknown = 24,
    SameAccount = 25,
    LedgersDiffer = 26,
    TopPassed = 27,
    DebitNotAdmitted = 28,
    CreditNotAdmitted = 29,
    ReservationsFull = 30,
    ReservationUnknown = 31,
    AlreadyPosted = 32,
    AlreadyVoided = 33,
    AlreadyLapsed = 34,
    PostAmount = 35,
    AccountNumber = 41,
    Ledger = 42,
    Limit = 43,
    LabelMalformed = 44,
    AccountsFull = 45,
    JournalFull = 46,
    AccountNotAdmitted = 47,
    MomentTooLate = 51,
    MomentEarlier = 52,
    LapsesTooShort = 53,
    BufferTooShort = 56,
}

impl Refusal {
    /// Refuses when the condition holds.
    #[inline(always)]
    pub fn when(self, condition: bool) -> Result<(), Refusal> {
        if condition {
            Err(self)
        } else {
            Ok(())
        }
    }
}
