//! Every call and every code, on small cases whose answers the rules state.

use lintelsong::{
    Account, Buffer, BufferCounts, Code, Fill, FillByCount, FillBySlots, Filled, Filter, Form,
    Group, GroupCounts, Keys, Kind, Message, Place, SkipRows, Skipped, SlotId,
};

fn name(n: u64) -> Account {
    let mut bytes = [0; 32];
    bytes[24..].copy_from_slice(&n.to_be_bytes());
    bytes
}

fn int(account: u64, time: u64) -> Message {
    Message::internal(name(account), time, name(time.wrapping_add(1000)))
}

fn ext(account: u64, time: u64) -> Message {
    Message::external(name(account), time, name(time.wrapping_add(1000)))
}

fn buffer_of(messages: &[Message]) -> Buffer {
    let mut buffer = Buffer::new(1024, 256).unwrap();
    for message in messages {
        buffer.add(message).unwrap();
    }
    buffer
}

/// A fill with room for all keys.
fn fill(b: &mut Buffer, g: &mut Group, s: &mut Skipped, ask: &Fill) -> Result<Filled, Code> {
    let (mut lts, mut hashes) = (vec![0; 1024], vec![[0; 32]; 1024]);
    b.fill(
        g,
        s,
        ask,
        Keys {
            lts: &mut lts,
            hashes: &mut hashes,
        },
    )
}

/// A fill of a set of nobody, by slots and height.
fn fill_to(b: &mut Buffer, g: &mut Group, slots: u64, height: u64) -> Result<Filled, Code> {
    fill(
        b,
        g,
        &mut Skipped::new(),
        &Fill {
            slots,
            height,
            ..Fill::default()
        },
    )
}

/// A group of so many slots with one internal each, of accounts from `first` on.
fn group_of(room: u64, slots: u64, first: u64) -> Group {
    let messages: Vec<_> = (0..slots).map(|n| int(first + n, n)).collect();
    let mut group = Group::new(room).unwrap();
    let filled = fill_to(&mut buffer_of(&messages), &mut group, slots, 1).unwrap();
    assert_eq!(filled.collected, slots);
    group
}

fn answer(collected: u64, operations: u64, dropped: u64) -> Result<Filled, Code> {
    Ok(Filled {
        collected,
        operations,
        dropped,
    })
}

// ---- set-up: code 1

#[test]
fn a_set_up_has_ranges() {
    for (messages, accounts) in [(0, 1), (1, 0), (1025, 1), (1, 257), (u64::MAX, u64::MAX)] {
        assert_eq!(Buffer::new(messages, accounts).err(), Some(Code::SetUp));
    }
    for slots in [0, 65, u64::MAX] {
        assert_eq!(Group::new(slots).err(), Some(Code::SetUp));
    }
    assert!(Buffer::new(1, 1).is_ok() && Buffer::new(1024, 256).is_ok());
    assert!(Group::new(1).is_ok() && Group::new(64).is_ok());
    assert!(Skipped::new().is_empty() && Skipped::default().is_empty());
}

#[test]
fn a_refused_set_up_leaves_room_for_one() {
    let mut buffer = buffer_of(&[int(7, 1), ext(8, 2)]);
    assert_eq!(buffer.set_up(0, 5), Err(Code::SetUp));
    let one = BufferCounts {
        room_for_messages: 1,
        room_for_accounts: 1,
        messages: 0,
        accounts: 0,
        internals: 0,
        externals: 0,
    };
    assert_eq!(buffer.counts(), one);
    let mut group = group_of(4, 3, 0);
    assert_eq!(group.set_up(65), Err(Code::SetUp));
    assert_eq!(
        (
            group.counts().room_for_slots,
            group.is_empty(),
            group.last_slot()
        ),
        (1, true, None)
    );
}

// ---- add: codes 2 to 5

#[test]
fn add_and_what_is_held() {
    let mut buffer = Buffer::new(4, 2).unwrap();
    assert_eq!(buffer.min_ext_chain_time(), None);
    buffer.add(&int(7, 10)).unwrap();
    buffer.add(&ext(9, 20)).unwrap();
    buffer.add(&int(7, 30)).unwrap();
    let held = BufferCounts {
        room_for_messages: 4,
        room_for_accounts: 2,
        messages: 3,
        accounts: 2,
        internals: 2,
        externals: 1,
    };
    assert_eq!(buffer.counts(), held);
    assert_eq!(buffer.min_ext_chain_time(), Some(20));
    assert_eq!(buffer.account_messages_count(&name(7)), 2);
    assert_eq!(buffer.account_messages_count(&name(8)), 0);
    assert_eq!(
        buffer.check_is_filled(3),
        (FillByCount::IsFull, FillBySlots::CanNotFill)
    );
    assert_eq!(
        buffer.check_is_filled(4),
        (FillByCount::NotFull, FillBySlots::CanNotFill)
    );
    let queues: Vec<_> = buffer.queues().map(|q| (q.place(), q.account())).collect();
    assert_eq!(queues, [(Place(0), name(7)), (Place(1), name(9))]);
    let messages: Vec<_> = buffer.queues().flat_map(|q| q.messages()).collect();
    assert_eq!(messages, [int(7, 10), int(7, 30), ext(9, 20)]);
    assert_eq!(
        (
            buffer.account_at(Place(2)),
            buffer.account_at(Place(u16::MAX))
        ),
        (None, None)
    );
    assert_eq!(
        (
            buffer.message_at(Place(0), 2),
            buffer.message_at(Place(2), 0)
        ),
        (None, None)
    );
    assert_eq!(buffer.message_at(Place(u16::MAX), u64::MAX), None);
}

#[test]
fn add_refuses_by_its_codes() {
    let mut buffer = Buffer::new(2, 1).unwrap();
    let special = Message {
        special: true,
        ..int(7, 1)
    };
    // the lowest code that fits is given
    assert_eq!(
        buffer.add(&Message {
            kind: Kind::from(9),
            ..special
        }),
        Err(Code::Special)
    );
    for byte in 2..=255 {
        let kind = Kind::from(byte);
        assert_eq!(
            buffer.add(&Message { kind, ..int(7, 1) }),
            Err(Code::WrongKind)
        );
        assert_eq!(u8::from(kind), byte);
    }
    buffer.add(&int(7, 1)).unwrap();
    assert_eq!(buffer.add(&int(8, 1)), Err(Code::Crowded));
    buffer.add(&int(7, 2)).unwrap();
    assert_eq!(buffer.add(&int(7, 3)), Err(Code::Full));
    assert_eq!(buffer.add(&int(8, 3)), Err(Code::Full));
    assert_eq!(buffer.counts().messages, 2);
}

#[test]
fn another_form_waits_with_the_zero_account() {
    let other = Message {
        form: Form::Other,
        ..int(7, 1)
    };
    let buffer = buffer_of(&[other]);
    assert_eq!(other.account(), [0; 32]);
    assert_eq!(buffer.account_at(Place(0)), Some([0; 32]));
    // the record keeps its address
    assert_eq!(buffer.message_at(Place(0), 0), Some(other));
}

#[test]
fn a_minimum_at_the_end_of_the_range_is_present() {
    let buffer = buffer_of(&[ext(7, u64::MAX)]);
    assert_eq!(buffer.min_ext_chain_time(), Some(u64::MAX));
}

// ---- remove: code 8

#[test]
fn remove_takes_queues_of_internals() {
    let mut buffer = buffer_of(&[int(7, 1), int(8, 2), ext(9, 3), int(7, 4)]);
    assert_eq!(buffer.remove(&[name(7), name(9)]), Err(Code::HoldsExternal));
    assert_eq!(buffer.counts().messages, 4);
    buffer.remove(&[]).unwrap();
    buffer.remove(&[name(7), name(7), name(1)]).unwrap();
    let left: Vec<_> = buffer.queues().map(|q| q.account()).collect();
    assert_eq!(left, [name(8), name(9)]);
}

// ---- transactions: codes 6 and 7

#[test]
fn a_transaction_goes_back_or_stays() {
    let mut buffer = buffer_of(&[int(7, 1), int(8, 2)]);
    assert_eq!(buffer.commit(), Err(Code::NoTransaction));
    assert_eq!(buffer.rollback(), Err(Code::NoTransaction));
    assert!(!buffer.in_tx());
    buffer.begin().unwrap();
    assert!(buffer.in_tx());
    assert_eq!(buffer.begin(), Err(Code::InTransaction));
    buffer.remove(&[name(7)]).unwrap();
    buffer.add(&ext(7, 3)).unwrap();
    buffer.rollback().unwrap();
    let back: Vec<_> = buffer.queues().flat_map(|q| q.messages()).collect();
    assert_eq!(back, [int(7, 1), int(8, 2)]);
    assert_eq!((buffer.in_tx(), buffer.min_ext_chain_time()), (false, None));
    buffer.begin().unwrap();
    buffer.remove(&[name(7)]).unwrap();
    buffer.commit().unwrap();
    assert_eq!(buffer.counts().messages, 1);
}

// ---- fill: codes 9 to 13

#[test]
fn a_fill_and_the_group_it_leaves() {
    let mut buffer = buffer_of(&[ext(7, 90), int(7, 5), int(9, 6), int(9, 7)]);
    let (mut group, mut skipped) = (Group::new(3).unwrap(), Skipped::new());
    let (mut lts, mut hashes) = ([77; 5], [[77; 32]; 5]);
    let ask = Fill {
        slots: 2,
        height: 2,
        filter: Filter::Below(100),
        ..Fill::default()
    };
    let keys = Keys {
        lts: &mut lts,
        hashes: &mut hashes,
    };
    let filled = buffer.fill(&mut group, &mut skipped, &ask, keys).unwrap();
    assert_eq!((filled.collected, filled.dropped), (3, 1));
    assert_eq!(lts, [5, 6, 7, 77, 77]);
    assert_eq!(hashes[..4], [name(1005), name(1006), name(1007), [77; 32]]);
    let counts = GroupCounts {
        room_for_slots: 3,
        slots: 2,
        accounts: 2,
        messages: 3,
        internals: 3,
        externals: 0,
    };
    assert_eq!((group.counts(), group.is_empty()), (counts, false));
    assert_eq!(group.to_string(), "int=3, ext=0, accounts=2, slots=2");
    assert!(group.contains_account(&name(7)) && !group.contains_account(&name(8)));
    assert!(group.check_is_filled(2, 1) && !group.check_is_filled(2, 2));
    assert!(!group.check_is_filled(3, 0) && !group.check_is_filled(u64::MAX, u64::MAX));
    let slots: Vec<_> = group
        .slots()
        .map(|s| (s.id(), s.internals(), s.externals()))
        .collect();
    assert_eq!(slots, [(SlotId(1), 1, 0), (SlotId(2), 2, 0)]);
    let accounts: Vec<Vec<_>> = group.slots().map(|s| s.accounts().collect()).collect();
    assert_eq!(accounts, [[name(7)], [name(9)]]);
    let lists: Vec<_> = group
        .lists()
        .map(|l| (l.account(), l.messages().count()))
        .collect();
    assert_eq!(lists, [(name(7), 1), (name(9), 2)]);
    assert_eq!(group.message_at(&name(9), 1), Some(int(9, 7)));
    let buckets: Vec<Vec<_>> = group.buckets().map(|b| b.slots().collect()).collect();
    assert_eq!(
        (buckets.len(), &buckets[1], &buckets[2]),
        (17, &vec![SlotId(1)], &vec![SlotId(2)])
    );
    assert_eq!(group.buckets().map(|b| b.slots().count()).sum::<usize>(), 2);
    assert_eq!(buffer.counts().messages, 0);
}

#[test]
fn walks_past_the_end_find_nothing() {
    let group = group_of(4, 2, 0);
    assert!(group.slot_at(2).is_none() && group.slot_at(u64::MAX).is_none());
    assert_eq!(
        (group.account_at(2), group.account_at(u64::MAX)),
        (None, None)
    );
    assert_eq!(
        (group.slot_account_at(0, 1), group.slot_account_at(2, 0)),
        (None, None)
    );
    assert_eq!(group.slot_account_at(u64::MAX, u64::MAX), None);
    assert_eq!(
        (group.message_at(&name(0), 1), group.message_at(&name(5), 0)),
        (None, None)
    );
    assert_eq!(
        (group.bucket_at(17, 0), group.bucket_at(0, 64)),
        (None, None)
    );
    assert_eq!(group.bucket_at(u64::MAX, u64::MAX), None);
    assert_eq!(Skipped::new().account_at(u64::MAX), None);
}

#[test]
fn worked_cases() {
    // P1 and P2
    let (mut buffer, mut group) = (buffer_of(&[]), Group::new(4).unwrap());
    assert_eq!(fill_to(&mut buffer, &mut group, 1, 1), answer(0, 0, 0));
    assert_eq!(group.last_slot(), Some(SlotId(1)));
    buffer.add(&int(7, 1)).unwrap();
    assert_eq!(fill_to(&mut buffer, &mut group, 1, 1), answer(1, 4, 0));
    assert_eq!(group.slot_at(0).map(|s| s.id()), Some(SlotId(2)));
    // P3
    let (mut buffer, mut group) = (buffer_of(&[int(7, 1)]), Group::new(4).unwrap());
    assert_eq!(fill_to(&mut buffer, &mut group, 1, 0), answer(0, 2, 0));
    // P6 and P7
    for (time, told) in [(100, (1, 0)), (99, (0, 1))] {
        let (mut buffer, mut group) = (buffer_of(&[ext(7, time)]), Group::new(1).unwrap());
        let ask = Fill {
            slots: 1,
            height: 1,
            filter: Filter::Below(100),
            ..Fill::default()
        };
        let filled = fill(&mut buffer, &mut group, &mut Skipped::new(), &ask).unwrap();
        assert_eq!((filled.collected, filled.dropped), told);
    }
    // P8
    let rows = SkipRows {
        names: &[name(7)],
        verdicts: &[false],
        costs: &[u64::MAX],
    };
    let ask = Fill {
        slots: 1,
        height: 1,
        rows,
        ..Fill::default()
    };
    let (mut buffer, mut group) = (buffer_of(&[int(7, 1)]), Group::new(1).unwrap());
    let told = fill(&mut buffer, &mut group, &mut Skipped::new(), &ask);
    assert_eq!(told, answer(1, u64::MAX, 0));
}

#[test]
fn a_skip_row_puts_its_account_in_the_set() {
    // P9
    let (mut buffer, mut group) = (buffer_of(&[int(7, 1)]), Group::new(1).unwrap());
    let mut skipped = Skipped::new();
    let rows = SkipRows {
        names: &[name(7), name(8)],
        verdicts: &[true],
        costs: &[5, 5],
    };
    let ask = Fill {
        slots: 1,
        height: 1,
        rows,
        ..Fill::default()
    };
    assert_eq!(
        fill(&mut buffer, &mut group, &mut skipped, &ask),
        answer(0, 6, 0)
    );
    assert_eq!(
        fill(&mut buffer, &mut group, &mut skipped, &ask),
        answer(0, 2, 0)
    );
    assert_eq!((skipped.len(), skipped.is_empty()), (1, false));
    assert!(skipped.contains(&name(7)) && !skipped.contains(&name(8)));
    assert_eq!(skipped.accounts().collect::<Vec<_>>(), [name(7)]);
    skipped.clear();
    assert_eq!((skipped.len(), skipped.account_at(0)), (0, None));
}

#[test]
fn a_fill_refuses_by_its_codes() {
    let messages = [int(7, 1), int(8, 2)];
    let (mut buffer, mut group) = (buffer_of(&messages), Group::new(2).unwrap());
    let mut skipped = Skipped::new();
    for (slots, height) in [(3, 1), (1, 17), (u64::MAX, u64::MAX)] {
        assert_eq!(
            fill_to(&mut buffer, &mut group, slots, height),
            Err(Code::TooLarge)
        );
    }
    // as many key rows as the shorter list has
    let (mut lts, mut hashes) = ([77; 2], [[77; 32]; 1]);
    let ask = Fill {
        slots: 2,
        height: 1,
        ..Fill::default()
    };
    let keys = Keys {
        lts: &mut lts,
        hashes: &mut hashes,
    };
    assert_eq!(
        buffer.fill(&mut group, &mut skipped, &ask, keys),
        Err(Code::FewKeys)
    );
    assert_eq!((lts, hashes), ([77; 2], [[77; 32]; 1]));
    assert_eq!(
        buffer.fill(&mut group, &mut skipped, &ask, Keys::default()),
        Err(Code::FewKeys)
    );
    // 257 rows; and as many as the shortest of the three lists has
    let (names, verdicts, costs) = ([name(1); 257], [false; 257], [1; 257]);
    let rows = SkipRows {
        names: &names,
        verdicts: &verdicts,
        costs: &costs,
    };
    let ask = Fill { rows, ..ask };
    assert_eq!(
        fill(&mut buffer, &mut group, &mut skipped, &ask),
        Err(Code::ManySkips)
    );
    let rows = SkipRows {
        names: &names,
        verdicts: &verdicts,
        costs: &costs[..256],
    };
    let ask = Fill { rows, ..ask };
    assert_eq!(buffer.counts().messages, 2);
    assert_eq!(
        fill(&mut buffer, &mut group, &mut skipped, &ask).map(|f| f.collected),
        Ok(2)
    );
}

#[test]
fn a_set_has_room_for_512() {
    let (mut skipped, mut group) = (Skipped::new(), Group::new(1).unwrap());
    let ask = Fill {
        slots: 1,
        height: 1,
        ..Fill::default()
    };
    let mut skip = |accounts: std::ops::Range<u64>| {
        let messages: Vec<_> = accounts.clone().map(|n| int(n, n)).collect();
        let names: Vec<_> = accounts.map(name).collect();
        let (verdicts, costs) = (vec![true; names.len()], vec![0; names.len()]);
        let rows = SkipRows {
            names: &names,
            verdicts: &verdicts,
            costs: &costs,
        };
        let ask = Fill { rows, ..ask };
        let told = fill(&mut buffer_of(&messages), &mut group, &mut skipped, &ask);
        (told.map(|f| f.collected), skipped.len())
    };
    assert_eq!(skip(0..256), (Ok(0), 256));
    assert_eq!(skip(256..512), (Ok(0), 512));
    // the set is full, so no row may say skip, not even one of an account that it holds
    assert_eq!(skip(0..1), (Err(Code::ManySkips), 512));
    assert_eq!(skip(0..0), (Ok(0), 512));
}

#[test]
fn a_slot_that_stays_listed_is_overfull() {
    // P11
    let (mut buffer, mut group) = (buffer_of(&[int(7, 1)]), Group::new(1).unwrap());
    fill_to(&mut buffer, &mut group, 1, 1).unwrap();
    buffer.add(&int(7, 2)).unwrap();
    buffer.add(&int(7, 3)).unwrap();
    fill_to(&mut buffer, &mut group, 1, 3).unwrap();
    assert_eq!(fill_to(&mut buffer, &mut group, 1, 2), Err(Code::Overfull));
    assert!(fill_to(&mut buffer, &mut group, 1, 1).is_ok());
}

#[test]
fn slot_numbers_are_used_up() {
    let (mut buffer, mut group) = (buffer_of(&[]), Group::new(1).unwrap());
    for _ in 0..u16::MAX {
        fill_to(&mut buffer, &mut group, 1, 1).unwrap();
    }
    assert_eq!(group.last_slot(), Some(SlotId(u16::MAX)));
    assert_eq!(
        fill_to(&mut buffer, &mut group, 1, 1),
        Err(Code::NumbersUsedUp)
    );
    assert_eq!(group.join(&mut group_of(1, 1, 7)), Err(Code::NumbersUsedUp));
}

// ---- join: codes 14, 15, 12

#[test]
fn a_join_moves_all_of_the_right_group() {
    let (mut left, mut right) = (group_of(5, 2, 10), group_of(7, 3, 20));
    left.join(&mut right).unwrap();
    assert_eq!(left.to_string(), "int=5, ext=0, accounts=5, slots=5");
    let ids: Vec<_> = left.slots().map(|s| s.id().0).collect();
    assert_eq!(ids, [1, 2, 3, 4, 5]);
    assert_eq!(
        (
            right.counts().room_for_slots,
            right.is_empty(),
            right.last_slot()
        ),
        (7, true, None)
    );
    // onto a group that never had a slot, numbers begin at 0
    let mut fresh = Group::new(5).unwrap();
    fresh.join(&mut left).unwrap();
    assert_eq!(
        fresh.slots().map(|s| s.id().0).collect::<Vec<_>>(),
        [0, 1, 2, 3, 4]
    );
}

#[test]
fn a_join_refuses_by_its_codes() {
    let (mut left, mut right) = (group_of(4, 2, 10), group_of(7, 3, 11));
    // too many slots is tested before the shared account
    assert_eq!(left.join(&mut right), Err(Code::ManySlots));
    let mut left = group_of(5, 2, 10);
    assert_eq!(left.join(&mut right), Err(Code::SharedAccount));
    assert_eq!((left.counts().slots, right.counts().slots), (2, 3));
}

// ---- the crate itself

#[test]
fn codes_have_their_numbers() {
    for (place, code) in Code::ALL.into_iter().enumerate() {
        assert_eq!(usize::from(code.number()), place + 1);
        assert_eq!(Code::of(code.number()), Some(code));
        assert!(code
            .to_string()
            .starts_with(&format!("code {}: ", place + 1)));
    }
    assert_eq!(
        (Code::of(0), Code::of(16), Code::of(255)),
        (None, None, None)
    );
}

#[test]
fn states_may_be_sent() {
    let mut buffer = buffer_of(&[int(7, 1)]);
    let held = std::thread::spawn(move || {
        buffer.add(&int(8, 2)).unwrap();
        buffer.counts().messages
    });
    assert_eq!(held.join().unwrap(), 2);
}
