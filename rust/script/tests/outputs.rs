//! Whole scripts and what they tell.

/// A head: the journal, Open, and the used length.
fn head(journal: u8, used: u8) -> Vec<u8> {
    vec![1, journal, 0, 9, 9, 9, 0, 0, 0, 0, 0, 0, 0, used]
}

fn open(number: u8) -> Vec<u8> {
    let mut call = vec![1, 0, 0, 0, number, 0, 7, 3, 0, 0, 0, 0, 0, 0, 0, 5];
    call.extend(b"DAM     ");
    call
}

/// A batch of one reserve of 9 from 1 to 2 for 60 seconds, with two places for answers.
fn reserve(number: u8) -> Vec<u8> {
    let mut call = vec![2, 1, 2];
    call.extend([0, 0, 0, number, 0, 3, 0, 0, 0, 1, 0, 0, 0, 2]);
    call.extend([0, 0, 0, 0, 0, 0, 0, 9, 0, 0, 0, 60]);
    call
}

fn move_to(moment: u8, lapses: u8) -> Vec<u8> {
    vec![3, 0, 0, 0, 0, 0, 0, 0, moment, 0, lapses]
}

fn long(number: u64) -> [u8; 8] {
    number.to_be_bytes()
}

fn told_by_all_calls() -> Vec<u8> {
    let mut expected = vec![1, 0, 1, 0, 1, 41, 2, 0];
    expected.extend(long(1));
    expected.extend([0, 15, 3, 53]);
    expected.extend([0; 16]);
    expected.extend([3, 0]);
    expected.extend([long(1), long(0)].concat());
    expected.extend([0, 0, 0, 4, 255, 255, 255, 255, 4, 56]);
    expected.extend(long(0));
    expected.extend([0xA5; 45]);
    expected.extend([4, 0]);
    expected.extend(long(46));
    expected.extend(b"7 DAM 1 0 0 0 0\n7 DAM 2 0 0 0 0\n7 = 2 0 0 0 0\n");
    expected.extend([0xA5; 2]);
    expected.extend([5, 1, 0, 0, 0, 1, 0, 7, 3]);
    expected.extend(long(5));
    expected.extend(b"DAM     ");
    expected.extend([0; 32]);
    expected.extend([5, 0, 6, 1, 0, 0, 0, 4, 0, 0, 0, 1, 0, 0, 0, 2]);
    expected.extend([long(9), long(60)].concat());
    expected.extend([3, 6, 0, 7]);
    expected.extend(long(60));
    expected.extend([8, 0]);
    expected.extend(long(0));
    expected
}

#[test]
fn all_calls() {
    let script = [
        head(0, 0),
        open(1),
        open(2),
        open(2),
        reserve(4),
        move_to(61, 0),
        move_to(60, 2),
        vec![4, 0, 45, 4, 0, 48],
        vec![5, 0, 0, 0, 1, 5, 0, 0, 0, 3],
        vec![6, 0, 0, 0, 4, 6, 0, 0, 0, 3],
        vec![7, 8],
    ]
    .concat();
    let mut memory = [0xEE; 60];
    let (code, output) = script::run(&script, &mut memory, 9999);
    let expected = told_by_all_calls();
    assert_eq!(code, 0);
    let (told, end) = output.split_at(expected.len());
    assert_eq!(told, expected);
    assert_eq!(end[0], 255);
    assert_eq!(end[1..17], [long(3), long(253)].concat());
    assert_eq!(end.len(), 17 + 3 * 48 + 8);
    assert_eq!(end[end.len() - 8..], long(0));
    assert_eq!(memory, [0xEE; 60]);
}

#[test]
fn strips_in_memory() {
    for (journal, count) in [(1, 2), (2, 1), (3, 2)] {
        let mut memory = [0xEE; 160];
        let (code, _) = script::run(&[head(1, 0), open(1)].concat(), &mut memory, 999);
        assert_eq!((code, memory[0]), (0, 1));
        let script = [head(journal, 49), open(2)].concat();
        let (code, output) = script::run(&script, &mut memory, 999);
        assert_eq!((code, &output[..2]), (0, [1, 0].as_slice()));
        assert_eq!(output[2..19], [vec![255], [long(count), long(1)].concat()].concat());
        assert_eq!(output[output.len() - 8..], long(97));
        assert_eq!(output[output.len() - 56..output.len() - 8], memory[49..97]);
        assert_eq!(memory[97..], [0xEE; 63]);
    }
}

#[test]
fn too_little_output() {
    let script = [head(1, 0), open(1), vec![7], open(2)].concat();
    let mut memory = [0xEE; 200];
    let (code, all) = script::run(&script, &mut memory, 9999);
    assert_eq!(code, 0);
    for room in 0..all.len() {
        let mut memory = [0xEE; 200];
        let (code, output) = script::run(&script, &mut memory, room);
        assert_eq!(code, 8);
        let told = [13, 11, 2, 0].into_iter().find(|told| *told <= room);
        assert_eq!(Some(output.len()), told);
        assert_eq!(output, all[..output.len()]);
    }
    assert_eq!(script::run(&script, &mut [0xEE; 200], all.len()), (0, all));
}

#[test]
fn bad_scripts_write_nothing() {
    let good = [head(1, 0), open(1)].concat();
    for (more, code) in [(vec![9], 5), (vec![7, 1, 0], 4), (vec![4, 255, 0], 7)] {
        let mut memory = [0xEE; 60];
        let script = [good.clone(), more].concat();
        assert_eq!(script::run(&script, &mut memory, 999), (code, vec![]));
        assert_eq!(memory, [0xEE; 60]);
    }
}
