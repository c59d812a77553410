//! The helpers of the C face against a plain reading of the same bytes.

use compare::dice::Dice;
use compare::drawing::{self, Word};
use compare::plan::{FieldPlan, Plan, TypePlan};
use compare::table::{table_of, Base, Size};
use judge::Status;
use linked::parts;

const LIST: usize = 1845;

#[test]
fn the_parts_of_a_result() {
    let mut dice = Dice::new(14, 0);
    for _ in 0..10_000 {
        let result = dice.roll();
        let bytes = result.to_le_bytes();
        let above = u32::from(u16::from_le_bytes([bytes[4], bytes[5]]));
        assert_eq!(parts::status(result), bytes[0]);
        assert_eq!(parts::r#type(result), bytes[1]);
        assert_eq!(parts::level(result), bytes[2]);
        assert_eq!(parts::length(result), bytes[3]);
        assert_eq!(parts::removed(result), above);
        assert_eq!(parts::hits(result), above);
    }
}

/// Each bit of a result stands in one part; the upper 16 are in none.
#[test]
fn no_part_of_a_result_reaches_into_another() {
    for bit in 0..64 {
        let result = 1 << bit;
        let low = [
            parts::status(result),
            parts::r#type(result),
            parts::level(result),
            parts::length(result),
        ];
        assert_eq!(
            u64::from(u32::from_le_bytes(low)),
            result % (1 << 32),
            "bit {bit}"
        );
        assert_eq!(
            u64::from(parts::removed(result)),
            (result >> 32) % (1 << 16)
        );
        assert_eq!(parts::hits(result), parts::removed(result));
    }
}

#[test]
fn the_letters_of_every_number() {
    for number in 0..=255 {
        let mut letters = [0x55; 3];
        parts::letters(number, &mut letters);
        let printed = Status::of_number(number).map_or("??", Status::letters);
        assert_eq!(&letters[..2], printed.as_bytes(), "status {number}");
        assert_eq!(letters[2], 0);
    }
}

#[test]
fn the_parts_of_a_position() {
    for on in [0, 1] {
        for cell in [0, 1, 255, 256, 4095, 4096] {
            for parentage in [None, Some(0), Some(7), Some(300)] {
                for hold in [false, true] {
                    let block = drawing::block(on, cell, parentage, hold);
                    let block: [u8; 8] = block.try_into().expect("8 bytes");
                    assert_eq!(parts::on_cell(&block), on);
                    assert_eq!(usize::from(parts::cell(&block)), cell);
                    assert_eq!(parts::has_parentage(&block), u8::from(parentage.is_some()));
                    assert_eq!(
                        usize::from(parts::parentage(&block)),
                        parentage.unwrap_or(0)
                    );
                    assert_eq!(parts::hold(&block), u8::from(hold));
                }
            }
        }
    }
}

/// A flag is set by 1 and by nothing else, and a number may be any.
#[test]
fn the_parts_of_any_eight_bytes() {
    let mut dice = Dice::new(18, 0);
    for case in 0..10_000 {
        let mut block: [u8; 8] = dice.bytes(8).try_into().expect("8 bytes");
        for flag in [0, 3, 6] {
            block[flag] = (case % 256) as u8;
        }
        let is_set = u8::from(case % 256 == 1);
        assert_eq!(parts::on_cell(&block), is_set);
        assert_eq!(parts::has_parentage(&block), is_set);
        assert_eq!(parts::hold(&block), is_set);
        assert_eq!(parts::cell(&block).to_be_bytes(), block[1..3]);
        assert_eq!(parts::parentage(&block).to_be_bytes(), block[4..6]);
    }
}

/// Every cell of a table that was drawn, and the first ones behind it.
fn reads_every_cell(base: &Base) {
    let (cat, tab) = (&base.catalogue, &base.table);
    assert_eq!(
        usize::from(parts::area_size(cat)),
        base.plan.cell_size() - 1
    );
    assert_eq!(parts::table_size(cat, base.capacity()), tab.len());
    assert_eq!(parts::count(tab), base.count());
    for cell in 0..base.count() {
        let start = parts::data_start(tab, cell);
        let length = usize::from(parts::data_length(cat, tab, cell));
        assert_eq!(parts::cell_type(tab, cell), base.type_at(cell));
        assert_eq!(&tab[start..start + length], base.data_at(cell));
    }
    for none in [base.count(), base.capacity(), 5000, usize::MAX] {
        assert_eq!(parts::cell_type(tab, none.max(base.count())), 0);
        assert_eq!(parts::data_start(tab, none.max(base.count())), 0);
        assert_eq!(parts::data_length(cat, tab, none.max(base.count())), 0);
    }
}

#[test]
fn the_segments_of_tables() {
    reads_every_cell(&Base::bench());
    for case in 0..200 {
        let mut dice = Dice::new(15, case);
        reads_every_cell(&Base::draw(&mut dice, Size::Any));
    }
}

#[test]
fn table_sizes_end_at_4096_cells() {
    let cat = Plan::bench().block();
    assert_eq!(parts::table_size(&cat, 0), 8);
    assert_eq!(parts::table_size(&cat, 12), 56);
    assert_eq!(parts::table_size(&cat, 4096), 8 + 4 * 4096);
    assert_eq!(parts::table_size(&cat, 4097), 0);
    assert_eq!(parts::table_size(&cat, usize::MAX), 0);
    assert_eq!(parts::table_size(b"", 4096), 8 + 4096);
}

/// Data that would lie behind the end of a table has no bytes, whatever its header says.
#[test]
fn no_helper_leads_out_of_a_table() {
    for case in 0..2000 {
        let mut dice = Dice::new(16, case);
        let cat = Plan::draw(&mut dice).block();
        let length = dice.below(300);
        let tab = dice.bytes(length);
        for cell in [0, 1, 2, 30, 65_534] {
            let start = parts::data_start(&tab, cell);
            let long = usize::from(parts::data_length(&cat, &tab, cell));
            assert!(long == 0 || start + long <= tab.len());
        }
    }
}

#[test]
fn data_may_end_where_the_table_ends() {
    let Base {
        catalogue, table, ..
    } = Base::bench();
    let last = parts::count(&table) - 1;
    let long = parts::data_length(&catalogue, &table, last);
    let end = parts::data_start(&table, last) + usize::from(long);
    assert!(0 < long && end < table.len());
    assert_eq!(parts::data_length(&catalogue, &table[..end], last), long);
    assert_eq!(parts::data_length(&catalogue, &table[..end - 1], last), 0);
    assert_eq!(
        parts::cell_type(&table[..end - 1], last),
        parts::cell_type(&table, last)
    );
}

#[test]
fn a_cell_of_no_type_has_no_data() {
    let Base {
        catalogue,
        mut table,
        ..
    } = Base::bench();
    let at = parts::data_start(&table, 2) - 1;
    for none in [0, 5, 255] {
        table[at] = none;
        assert_eq!(parts::cell_type(&table, 2), none);
        assert_eq!(parts::data_length(&catalogue, &table, 2), 0);
    }
}

/// What a block has not reads as 0, and the highest numbers that a header can have lead to no overflow.
#[test]
fn blocks_that_are_cut_or_full() {
    let cat = Plan::bench().block();
    let full = [0xFF; 8];
    assert_eq!(parts::count(&full), 65_535);
    assert_eq!(parts::data_start(&full, 65_534), 9 + 65_534 * 255);
    assert_eq!(parts::data_start(&full, 65_535), 0);
    assert_eq!(parts::cell_type(&full, 65_534), 0);
    assert_eq!(parts::data_length(&cat, &full, 65_534), 0);
    assert_eq!(parts::count(&full[..7]), 255 * 256);
    assert_eq!(parts::count(&full[..6]), 0);
    assert_eq!(parts::count(b""), 0);
    assert_eq!(parts::area_size(b""), 0);
    assert_eq!(parts::data_start(b"", 0), 0);
}

fn added(cat: &[u8], list: &mut [u8; LIST], used: usize, word: &Word) -> usize {
    match word.operator {
        0 => parts::list_all(list, used, word.type_code),
        by => parts::list_test(cat, list, used, word.type_code, by, word.field, &word.value),
    }
}

#[test]
fn lists_are_what_their_arguments_say() {
    for case in 0..500 {
        let mut dice = Dice::new(17, case);
        let base = Base::draw(&mut dice, Size::Any);
        let words = drawing::words(&mut dice, &base);
        let (mut list, mut used) = ([0x55; LIST], 0);
        for word in &words {
            used = added(&base.catalogue, &mut list, used, word);
        }
        assert_eq!(list[..used], drawing::list_of(&words));
        assert!(list[used..].iter().all(|&byte| byte == 0x55));
    }
}

/// What a call on the bench table answers to the front of a buffer as its list.
fn answered(list: &[u8]) -> u8 {
    let base = Base::bench();
    let (mut tab, mut pos, mut area) = (base.table.clone(), [0; 8], [0; 3]);
    let result = linked::call(&base.catalogue, &mut tab, &mut pos, 1, list, &mut area);
    parts::status(result)
}

#[test]
fn what_cannot_be_right_spoils_a_list_for_good() {
    let cat = Base::bench().catalogue;
    let spoils: [fn(&[u8], &mut [u8; LIST]) -> usize; 9] = [
        |cat, list| parts::list_test(cat, list, 0, 1, 1, 1, b"0"),
        |cat, list| parts::list_test(cat, list, 0, 1, 1, 1, b"071"),
        |cat, list| parts::list_test(cat, list, 0, 1, 0, 1, b"07"),
        |cat, list| parts::list_test(cat, list, LIST - 4, 1, 1, 1, b"07"),
        |cat, list| parts::list_test(cat, list, LIST - 2, 1, 1, 1, b"07"),
        |cat, list| parts::list_test(cat, list, usize::MAX, 1, 1, 1, b"07"),
        |_, list| parts::list_all(list, LIST - 1, 1),
        |_, list| parts::list_all(list, LIST, 1),
        |_, list| parts::list_all(list, usize::MAX, 1),
    ];
    for (which, spoil) in spoils.iter().enumerate() {
        let mut list = [0x55; LIST];
        let used = spoil(&cat, &mut list);
        assert_eq!((used, list[0]), (1, 0), "fault {which}");
        assert!(list[1..].iter().all(|&byte| byte == 0x55));
        assert_eq!(answered(&list[..used]), Status::AC.number());
        let used = parts::list_all(&mut list, used, 1);
        assert_eq!(answered(&list[..used]), Status::AC.number());
        let used = parts::list_test(&cat, &mut list, used, 2, 1, 2, b"12");
        assert_eq!(used, 8, "fault {which}");
        assert_eq!(answered(&list[..used]), Status::AC.number());
    }
}

#[test]
fn a_list_may_fill_its_buffer_to_the_last_byte() {
    let cat = Base::bench().catalogue;
    let mut list = [0x55; LIST];
    assert_eq!(parts::list_all(&mut list, LIST - 2, 1), LIST);
    assert_eq!(list[LIST - 2..], [1, 0]);
    assert_eq!(
        parts::list_test(&cat, &mut list, LIST - 5, 1, 6, 1, b"07"),
        LIST
    );
    assert_eq!(list[LIST - 5..], *b"\x01\x06\x0107");
}

/// 15 types, each beneath the one before, and for each a field of all its 120 bytes.
fn deepest() -> Plan {
    let type_plan = |parent| TypePlan {
        parent,
        length: 120,
        kind: 0,
        key_start: 0,
        key_length: 0,
        key_packed: false,
    };
    let field_plan = |type_code| FieldPlan {
        type_code,
        start: 1,
        length: 120,
        packed: false,
    };
    Plan {
        types: (0..15).map(type_plan).collect(),
        fields: (1..=15).map(field_plan).collect(),
    }
}

/// The buffer is as long as the longest list that can be right: one byte less would not do.
#[test]
fn the_longest_list_fills_the_buffer() {
    let plan = deepest();
    let (cat, mut tab) = (plan.block(), table_of(&plan, &[], 1));
    let (mut list, mut used) = ([0x55; LIST], 0);
    for level in 1..=15 {
        used = parts::list_test(&cat, &mut list, used, level, 1, level, &[level; 120]);
    }
    assert_eq!(used, LIST);
    let (mut pos, mut area) = ([0; 8], [0; 120]);
    let result = linked::call(&cat, &mut tab, &mut pos, 1, &list, &mut area);
    assert_eq!(parts::status(result), Status::GE.number());
    assert_eq!(parts::list_all(&mut list, used, 1), 1);
}
