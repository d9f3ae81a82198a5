//! Saved plans, with bytes written by hand: what a file says, each refusal in its place, and round trips.

use separate::{screen_load, screen_run, screen_save, screen_save_on, Plan, Refusal};

type Slots = Vec<[u8; 16]>;

/// Two measures, 3 and 12, one rule that asks for a gap of 1, and no edit made. The words behind the sum: 0x0003_0001 + 1 + 4, then
/// 0x0001_0002 + 3, 0x0001_0000 + 12, 0x0002_0000 + 0x0002_0001 + 1, in all 0x0009_0019 without the check word.
const PAIR: [[u8; 16]; 4] = [
    [1, 0, 3, 0, 1, 0, 0, 0, 0xe7, 0xff, 0xf6, 0xff, 4, 0, 0, 0],
    [2, 0, 1, 0, 3, 0, 0, 0, 0, 0, 0, 0, 0, 0, 0, 0],
    [0, 0, 1, 0, 12, 0, 0, 0, 0, 0, 0, 0, 0, 0, 0, 0],
    [0, 0, 2, 0, 1, 0, 2, 0, 1, 0, 0, 0, 0, 0, 0, 0],
];
const PAIR_SHEET: &str = "measure 3\nmeasure 12\nrule 1 1 2 0\nopen\n";

/// One measure of value 0 and nothing else.
const ONE: [[u8; 16]; 2] =
    [[1, 0, 0, 0, 1, 0, 0, 0, 0xfc, 0xff, 0xfe, 0xff, 2, 0, 0, 0], [0, 0, 1, 0, 0, 0, 0, 0, 0, 0, 0, 0, 0, 0, 0, 0]];

/// A file whose check word is set so that the words add up to 0.
fn summed(mut slots: Slots) -> Vec<u8> {
    slots[0][8..12].fill(0);
    let sum = slots.concat().chunks(4).fold(0u32, |sum, w| sum.wrapping_add(u32::from_le_bytes(w.try_into().unwrap())));
    slots[0][8..12].copy_from_slice(&sum.wrapping_neg().to_le_bytes());
    slots.concat()
}

/// The pair with one byte of a slot set, and the sum mended.
fn changed(slot: usize, byte: usize, value: u8) -> Vec<u8> {
    let mut slots = PAIR.to_vec();
    slots[slot][byte] = value;
    summed(slots)
}

/// A file of these values and rules (a, c, b, firm), with slots in rising order.
fn file(values: &[i32], rules: &[(u16, i32, u16, bool)]) -> Vec<u8> {
    let count = 1 + values.len() + rules.len();
    let mut slots = vec![[0; 16]; count];
    let link = |at: usize, end: usize| if at < end { [at as u8, 0] } else { [0, 0] };
    slots[0][..2].copy_from_slice(&link(1, 1 + values.len()));
    slots[0][2..4].copy_from_slice(&link(1 + values.len(), count));
    slots[0][4] = 1;
    slots[0][12] = count as u8;
    for (i, value) in values.iter().enumerate() {
        slots[1 + i][..2].copy_from_slice(&link(2 + i, 1 + values.len()));
        slots[1 + i][2] = 1;
        slots[1 + i][4..8].copy_from_slice(&value.to_le_bytes());
    }
    for (i, (a, c, b, firm)) in rules.iter().enumerate() {
        let slot = &mut slots[1 + values.len() + i];
        slot[..2].copy_from_slice(&link(2 + values.len() + i, count));
        slot[2] = if *firm { 6 } else { 2 };
        slot[4..6].copy_from_slice(&a.to_le_bytes());
        slot[6..8].copy_from_slice(&b.to_le_bytes());
        slot[8..12].copy_from_slice(&c.to_le_bytes());
    }
    summed(slots)
}

/// The refusal by either entry that loads, which write nothing then.
fn refused(file: &[u8]) -> u64 {
    let mut area = [b'#'; 2000];
    let given = screen_load(file, b"left\n", &mut area);
    assert_eq!(screen_save_on(file, b"", &mut area), given);
    assert_eq!(area, [b'#'; 2000]);
    assert!((1..256).contains(&given), "{given}");
    given
}

/// The answers on a loaded plan.
fn on(file: &[u8], sheet: &str) -> String {
    let mut area = [b'#'; 2000];
    let given = screen_load(file, sheet.as_bytes(), &mut area);
    assert_eq!(given % 512, 0);
    let length = given as usize / 512;
    assert!(area[length..].iter().all(|&b| b == b'#'));
    String::from_utf8(area[..length].to_vec()).unwrap()
}

fn save(sheet: &str) -> Vec<u8> {
    let mut area = [b'#'; 2000];
    let given = screen_save(sheet.as_bytes(), &mut area);
    assert_eq!(given % 256, 0, "{sheet}");
    let length = given as usize / 256;
    assert!(area[length..].iter().all(|&b| b == b'#'));
    area[..length].to_vec()
}

#[test]
fn the_pair_is_written_as_by_hand() {
    assert_eq!(save(PAIR_SHEET), PAIR.concat());
    assert_eq!(save("measure 0\nopen\n"), ONE.concat());
    assert_eq!(on(&PAIR.concat(), "show 1\nleft\nfate 1\nedit 1 5 0 1 1 11\nedit 1 5 0 1 1 10\nshow 1\n"), "ok 3 12\nok 0\nok 0 0\nno 29\nok 1\nok 10 12\n");
    assert_eq!(on(&ONE.concat(), "show 1\nshow 2"), "ok 0\nno 21\n");
    assert_eq!(on(&ONE.concat(), ""), "");
}

#[test]
fn a_plan_after_a_join_is_saved_with_its_next_number_and_no_edits() {
    let join = "split 1\nedit 1 5 0 1 2 1\nedit 2 6 0 1 3 3\njoin\nsend 1\nsend 2\nreplay 1\nreplay 2\nstop\nconfirm 1\nconfirm 2\ninstall\n";
    let saved = save(&format!("{PAIR_SHEET}{join}"));
    let mut due = PAIR.to_vec();
    due[0][4] = 3;
    due[1][4] = 4;
    assert_eq!(saved, summed(due));
    assert_eq!(on(&saved, "fate 1\nfate 2\nshow 1\nedit 1 5 1 1 2 1\nedit 1 5 0 1 2 1\n"), "ok 0 0\nok 0 0\nok 4 12\nno 25\nok 3\n");
    // The same edits on the loaded pair, and saved on.
    let mut area = [0; 64];
    assert_eq!(screen_save_on(&PAIR.concat(), join.as_bytes(), &mut area), 256 * 64);
    assert_eq!(area[..], saved);
}

#[test]
fn signs_and_firm_rules() {
    let saved = save("measure -1000000\nmeasure -7\nmeasure 1000000\nrule 1 -2000000 2 1\nrule 2 1000006 3 0\nopen\n");
    assert_eq!(saved, file(&[-1_000_000, -7, 1_000_000], &[(1, -2_000_000, 2, true), (2, 1_000_006, 3, false)]));
    assert_eq!(saved[16..32], [2, 0, 1, 0, 0xc0, 0xbd, 0xf0, 0xff, 0, 0, 0, 0, 0, 0, 0, 0]);
    assert_eq!(saved[64..80], [5, 0, 6, 0, 1, 0, 2, 0, 0x80, 0x7b, 0xe1, 0xff, 0, 0, 0, 0]);
    assert_eq!(on(&saved, "show 1\nsplit 1\nedit 1 1 0 1 2 1\nedit 1 1 0 3 2 -1\n"), "ok -1000000 -7 1000000\nok 2\nno 26\nno 29\n");
}

#[test]
fn slots_in_another_order() {
    let slots = vec![
        [3, 0, 2, 0, 1, 0, 0, 0, 0, 0, 0, 0, 4, 0, 0, 0],
        [0, 0, 1, 0, 12, 0, 0, 0, 0, 0, 0, 0, 0, 0, 0, 0],
        [0, 0, 2, 0, 1, 0, 2, 0, 1, 0, 0, 0, 0, 0, 0, 0],
        [1, 0, 1, 0, 3, 0, 0, 0, 0, 0, 0, 0, 0, 0, 0, 0],
    ];
    let file = summed(slots);
    assert_eq!(on(&file, "show 1\nedit 1 1 0 1 1 11\n"), "ok 3 12\nno 29\n");
    let mut area = [0; 64];
    assert_eq!(screen_save_on(&file, b"", &mut area), 256 * 64);
    assert_eq!(area[..], PAIR.concat());
}

#[test]
fn next_numbers() {
    let with = |number: u32| {
        let mut slots = PAIR.to_vec();
        slots[0][4..8].copy_from_slice(&number.to_le_bytes());
        summed(slots)
    };
    for number in [0, 1_000_001, 0x8000_0001, u32::MAX] {
        assert_eq!(refused(&with(number)), 46);
    }
    let edits = "edit 1 1 0 1 1 4\nedit 1 1 0 1 1 5\n";
    assert_eq!(on(&with(999_998), edits), "ok 999998\nok 999999\n");
    assert_eq!(on(&with(999_999), edits), "ok 999999\nno 30\n");
    assert_eq!(on(&with(1_000_000), edits), "no 30\nno 30\n");
    assert_eq!(on(&with(1_000_000), "split 1\nedit 2 1 0 1 1 4\nfate 1000000\n"), "ok 2\nno 30\nok 0 0\n");
    let mut area = [0; 64];
    assert_eq!(screen_save_on(&with(999_999), edits.as_bytes(), &mut area), 256 * 64);
    assert_eq!(area[4..8], [0x40, 0x42, 0x0f, 0]);
}

#[test]
fn lengths() {
    let pair = PAIR.concat();
    for length in 0..pair.len() {
        assert_eq!(refused(&pair[..length]), 44, "{length}");
    }
    assert_eq!(refused(&[&pair[..], &[0]].concat()), 44);
    assert_eq!(refused(&[&pair[..], &[0; 16]].concat()), 44);
    // 97 slots are a file, 98 are not.
    let rules = vec![(1, -1, 2, false); 65];
    assert_eq!(on(&file(&[0; 32], &rules[..64]), "left\n"), "ok 0\n");
    assert_eq!(refused(&file(&[0; 32], &rules)), 44);
    // Before the sum and the rest.
    let mut wrong = PAIR.to_vec();
    wrong[0][12] = 5;
    wrong[1][2] = 9;
    assert_eq!(refused(&wrong.concat()), 44);
    assert_eq!(refused(&changed(0, 13, 1)), 44);
}

#[test]
fn sums() {
    // The sum comes before the links and the drawing.
    for (at, value) in [(0, 9), (4, 0), (8, 0xe8), (11, 0xfe), (15, 1), (18, 3), (20, 13), (63, 1)] {
        let mut file = PAIR.concat();
        file[at] = value;
        assert_eq!(refused(&file), 45, "{at}");
    }
    // Two words changed against each other add up again.
    let mut file = PAIR.concat();
    file[20] += 1;
    file[36] -= 1;
    assert_eq!(on(&file, "show 1\n"), "ok 4 11\n");
}

#[test]
fn zero_bytes_and_bits() {
    for (slot, bytes) in [(0, vec![14, 15]), (1, (8..16).collect()), (3, vec![3, 12, 13, 14, 15])] {
        for byte in bytes {
            for value in [1, 0x80, 0xff] {
                assert_eq!(refused(&changed(slot, byte, value)), 46, "{slot} {byte}");
            }
        }
    }
    for mark in (0..=255).filter(|&mark| mark != 1) {
        assert_eq!(refused(&changed(1, 2, mark)), 46, "{mark}");
    }
    for mark in (0..=255).filter(|&mark| mark != 2 && mark != 6) {
        assert_eq!(refused(&changed(3, 2, mark)), 46, "{mark}");
    }
    assert_eq!(on(&changed(3, 2, 6), "split 1\nedit 1 1 0 1 1 4\n"), "ok 2\nno 26\n");
}

#[test]
fn chains() {
    // Out of the file, by either byte of a link.
    for (slot, byte) in [(0, 0), (0, 2), (1, 0), (2, 0), (3, 0)] {
        assert_eq!(refused(&changed(slot, byte, 4)), 46);
        assert_eq!(refused(&changed(slot, byte + 1, 1)), 46);
        assert_eq!(refused(&changed(slot, byte, 255)), 46);
    }
    // A slot that leads to itself, a circle of two, a slot on both chains, slots on none.
    assert_eq!(refused(&changed(2, 0, 2)), 46);
    assert_eq!(refused(&changed(2, 0, 1)), 46);
    assert_eq!(refused(&changed(3, 0, 3)), 46);
    assert_eq!(refused(&changed(0, 2, 2)), 46);
    assert_eq!(refused(&changed(3, 0, 1)), 46);
    assert_eq!(refused(&changed(0, 2, 0)), 46);
    assert_eq!(refused(&changed(1, 0, 0)), 46);
    assert_eq!(refused(&changed(0, 0, 0)), 46);
    // Before what drawing would refuse, though that slot is met first.
    let mut slots = PAIR.to_vec();
    slots[1][7] = 0x7f;
    assert_eq!(refused(&summed(slots.clone())), 11);
    slots[3][15] = 1;
    assert_eq!(refused(&summed(slots)), 46);
}

#[test]
fn drawing() {
    for (value, due) in [(1_000_001, 11), (-1_000_001, 11), (i32::MIN, 11), (i32::MAX, 11)] {
        assert_eq!(refused(&file(&[0, value], &[])), due);
    }
    assert_eq!(refused(&file(&[0; 33], &[])), 12);
    let mut values = [0; 33];
    values[32] = 1_000_001;
    assert_eq!(refused(&file(&values, &[])), 12);
    values[31] = 1_000_001;
    assert_eq!(refused(&file(&values, &[])), 11);
    // Measures come before rules.
    assert_eq!(refused(&file(&values, &[(9, 0, 9, false)])), 11);
    let rules = vec![(1, -1, 2, false); 65];
    assert_eq!(refused(&file(&[0; 31], &rules)), 13);
    let mut rules = rules;
    rules[64] = (1, 0, 1, false);
    assert_eq!(refused(&file(&[0; 31], &rules)), 13);
    rules[63] = (1, 0, 1, false);
    assert_eq!(refused(&file(&[0; 31], &rules)), 14);
    for (a, b) in [(0, 1), (1, 0), (1, 3), (3, 1), (1, 1), (257, 2), (1, 258), (65_535, 1)] {
        assert_eq!(refused(&file(&[0, 9], &[(a, 0, b, false)])), 14, "{a} {b}");
        assert_eq!(refused(&file(&[0, 9], &[(a, 2_000_001, b, true)])), 14, "{a} {b}");
    }
    for c in [2_000_001, -2_000_001, i32::MIN, i32::MAX] {
        assert_eq!(refused(&file(&[0, 9], &[(1, c, 2, false)])), 15);
    }
    // Rule by rule: the first that is refused counts, and 17 comes last.
    assert_eq!(refused(&file(&[0, 9], &[(1, 3_000_000, 2, false), (1, 0, 1, false)])), 15);
    assert_eq!(refused(&file(&[0, 9], &[(1, 9, 2, false), (1, 0, 1, false)])), 14);
    assert_eq!(refused(&file(&[0, 9], &[(1, 9, 2, false)])), 17);
    assert_eq!(on(&file(&[0, 9], &[(1, 8, 2, false)]), "left\n"), "ok 0\n");
    assert_eq!(refused(&file(&[], &[])), 16);
    assert_eq!(refused(&file(&[], &[(1, 0, 2, false)])), 14);
}

#[test]
fn refusals_of_saving_in_their_order() {
    let saving = |sheet: &str, length: usize| {
        let mut area = vec![b'#'; length];
        let given = screen_save(sheet.as_bytes(), &mut area);
        assert!(area.iter().all(|&b| b == b'#') || given % 256 == 0);
        given
    };
    for sheet in ["", "measure 3\n", "measure 3\nopen\nsplit 1\n", "measure 3\nopen\nsplit 1\njoin\n"] {
        assert_eq!(saving(sheet, 0), 31, "{sheet}");
        assert_eq!(saving(sheet, 2000), 31, "{sheet}");
    }
    for length in 0..70 {
        assert_eq!(saving(PAIR_SHEET, length), if length < 64 { 41 } else { 256 * 64 });
    }
    // The full sheet is a sheet, and one byte more is none; the rest of the lines are answered and dropped.
    let mut long = PAIR_SHEET.to_string() + &"left\n".repeat(13_098);
    long += &"x".repeat(65_536 - long.len());
    assert_eq!(saving(&long, 64), 256 * 64);
    long += "\n";
    assert_eq!(saving(&long, 64), 52);
    assert_eq!(saving(&long.replacen("open", "left", 1), 0), 52);
    // Loading comes before the sheet's length.
    let mut area = [b'#'; 64];
    assert_eq!(screen_save_on(&PAIR.concat(), long.as_bytes(), &mut area), 52);
    assert_eq!(screen_save_on(&PAIR.concat()[..1], long.as_bytes(), &mut area), 44);
    assert_eq!(screen_save_on(&PAIR.concat(), b"split 1\n", &mut area[..3]), 31);
    assert_eq!(screen_save_on(&PAIR.concat(), b"left\n", &mut area[..63]), 41);
    assert_eq!(area, [b'#'; 64]);
}

#[test]
fn a_sheet_too_long_on_a_loaded_plan_is_answered() {
    let long = vec![b'\n'; 65_537];
    for (length, given) in [(0, 1), (5, 1), (6, 12), (9, 12)] {
        let mut area = vec![b'#'; length];
        assert_eq!(screen_load(&PAIR.concat(), &long, &mut area), 256 * given);
        let mut expected = if given == 12 { b"no 52\n".to_vec() } else { Vec::new() };
        expected.resize(length, b'#');
        assert_eq!(area, expected);
    }
}

#[test]
fn a_loaded_plan_in_areas_of_every_length() {
    let sheet = "show 1\nedit 1 1 0 1 2 1\nbad\nleft\n";
    let all = on(&PAIR.concat(), sheet);
    for length in 0..all.len() + 3 {
        let mut area = vec![b'#'; length];
        let mut drawn = vec![b'#'; length + 20];
        let given = screen_load(&PAIR.concat(), sheet.as_bytes(), &mut area);
        // The same lines behind the drawing, whose answers take 20 bytes.
        let run = screen_run(format!("{PAIR_SHEET}{sheet}").as_bytes(), &mut drawn);
        assert_eq!(given, 256 * (run - 40), "{length}");
        assert_eq!(area, drawn[20..]);
    }
}

#[test]
fn round_trip_of_the_largest_plan() {
    let mut sheet = String::new();
    for m in 0..32 {
        sheet += &format!("measure {}\n", 60_000 * m - 930_000);
    }
    for rule in 0..64 {
        sheet += &format!("rule {} {} {} {}\n", rule % 31 + 1, rule - 32, rule % 31 + 2, rule % 2);
    }
    let saved = save(&(sheet.clone() + "open\nedit 1 1 0 5 2 3\n"));
    assert_eq!(saved.len(), 97 * 16);
    let mut area = [0; 97 * 16];
    assert_eq!(screen_save_on(&saved, b"", &mut area), 256 * 97 * 16);
    assert_eq!(area[..], saved);
    assert_eq!(on(&saved, "edit 1 1 0 5 2 -3\n"), "ok 2\n");
}

#[test]
fn loading_needs_a_plan_with_nothing_drawn() {
    let pair = PAIR.concat();
    let mut plan = Plan::new();
    plan.measure(5).unwrap();
    assert_eq!(plan.load(&pair), Err(Refusal::WrongMode));
    plan.open().unwrap();
    assert_eq!(plan.load(&[]), Err(Refusal::WrongMode));
    assert_eq!(plan.values_of(1), Ok(&[5][..]));
    // A refused load draws nothing.
    let mut plan = Plan::new();
    assert_eq!(plan.load(&file(&[0, 9], &[(1, 9, 2, true)])), Err(Refusal::RuleFails));
    assert_eq!((plan.measures(), plan.rules()), (0, 0));
    assert_eq!(plan.load(&pair), Ok(()));
    assert!(!plan.is_firm(1));
    assert_eq!(plan.load(&pair), Err(Refusal::WrongMode));
}
