use crate::order::Order;

/// The chains of a list of orders, from the front. Only the last may be unfinished.
pub fn chains(orders: &[Order]) -> impl Iterator<Item = &[Order]> {
    orders.split_inclusive(|order| !order.linked)
}

/// Whether a chain lacks its end.
pub fn is_unfinished(chain: &[Order]) -> bool {
    chain.last().is_some_and(|order| order.linked)
}

#[cfg(test)]
mod tests {
    use super::*;
    use crate::order::Task;

    #[test]
    fn splitting() {
        let table: [(&str, &[usize], bool); 7] = [
            ("", &[], false),
            (".", &[1], false),
            ("..", &[1, 1], false),
            ("-.", &[2], false),
            (".--.-.", &[1, 3, 2], false),
            (".-", &[1, 1], true),
            ("--", &[2], true),
        ];
        for (marks, lengths, unfinished) in table {
            let orders: Vec<_> = marks.chars().map(|c| order(c == '-')).collect();
            let found: Vec<_> = chains(&orders).map(<[_]>::len).collect();
            assert_eq!(found, lengths, "{marks}");
            assert_eq!(chains(&orders).last().is_some_and(is_unfinished), unfinished);
        }
    }

    fn order(linked: bool) -> Order {
        Order { number: 1, linked, task: Task::Void { reservation: 1 } }
    }
}
