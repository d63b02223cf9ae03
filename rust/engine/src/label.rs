/// A short name: 1 to 8 characters, filled with spaces.
#[derive(Clone, Copy, Debug, PartialEq, Eq, PartialOrd, Ord)]
pub struct Label(u64);

impl Label {
    /// The label of this number, if the number is one.
    pub fn new(number: u64) -> Option<Label> {
        let bytes = number.to_be_bytes();
        let named = (1..=8).any(|k| {
            bytes[..k].iter().all(|&b| in_alphabet(b)) && bytes[k..].iter().all(|&b| b == b' ')
        });
        named.then_some(Label(number))
    }

    pub fn number(self) -> u64 {
        self.0
    }

    /// The name without its filling.
    pub fn text(self) -> String {
        let bytes = self.0.to_be_bytes();
        bytes.iter().take_while(|&&b| b != b' ').map(|&b| char::from(b)).collect()
    }
}

fn in_alphabet(byte: u8) -> bool {
    byte.is_ascii_uppercase() || byte.is_ascii_digit() || byte == b'-'
}

#[cfg(test)]
mod tests {
    use super::*;

    #[test]
    fn table_of_labels() {
        let table: [(u64, Option<&str>); 9] = [
            (0x44414D2020202020, Some("DAM")),
            (0x4D494C4C20202020, Some("MILL")),
            (0x474154452D313220, Some("GATE-12")),
            (0x5245534552564539, Some("RESERVE9")),
            (0x2020202020202020, None),
            (0x2044414D20202020, None),
            (0x4120422020202020, None),
            (0x64616D2020202020, None),
            (0x44414D0000000000, None),
        ];
        for (number, text) in table {
            let found = Label::new(number).map(Label::text);
            assert_eq!(found.as_deref(), text, "{number:x}");
        }
        assert!(Label::new(0).is_none());
    }

    #[test]
    fn order_of_labels() {
        let names = [b"DAM     ", b"DAM-2   ", b"DAM1    ", b"DAMS    "];
        let labels: Vec<_> = names.iter().map(|n| Label::new(u64::from_be_bytes(**n))).collect();
        assert!(labels.iter().all(Option::is_some));
        assert!(labels.windows(2).all(|w| w[0] < w[1]));
    }
}
