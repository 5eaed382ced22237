//! Scenarios, and tests of every variant and every field. The numbers are read from `pim.h`.

use super::*;
use std::mem::size_of;

const HEADER: &str = include_str!("../../pim.h");

/// Returns the number that `pim.h` gives to PIM_NAME.
fn number(name: &str) -> u16 {
    let at = HEADER.find(&format!("PIM_{name} = ")).expect(name);
    let rest = &HEADER[at..];
    let digits = rest[rest.find("= ").unwrap() + 2..].chars();
    let digits: String = digits.take_while(char::is_ascii_digit).collect();
    digits.parse().expect(name)
}

/// Returns how many names the table of `pim.h` has that begins with PIM_NAME.
fn names_from(name: &str) -> usize {
    let at = HEADER.find(&format!("PIM_{name} = ")).expect(name);
    let table = &HEADER[at..at + HEADER[at..].find("};").unwrap()];
    let begins_a_line = |line: &&str| line.trim_start().starts_with("PIM_");
    table.lines().filter(begins_a_line).count()
}

/// Returns a variant's name as `pim.h` spells it: NOT_OWNER of NotOwner.
fn spelled(variant: impl std::fmt::Debug) -> String {
    let mut text = String::new();
    for letter in format!("{variant:?}").chars() {
        match letter {
            'A'..='Z' if !text.is_empty() => text.extend(['_', letter]),
            'a'..='z' | 'A'..='Z' => text.push(letter.to_ascii_uppercase()),
            _ => break,
        }
    }
    text
}

fn changed(task: u16, prio: u16, reason: Reason) -> ChangedTask {
    ChangedTask { task, prio, reason }
}

fn offset<T, F>(whole: &T, field: &F) -> usize {
    field as *const F as usize - whole as *const T as usize
}

#[test]
fn owner_is_boosted_until_it_unlocks() {
    let mut locks = Manager::new(&[10, 50, 90], &[Protocol::Inherit]).unwrap();
    assert_eq!(locks.tasks(), 3);
    assert_eq!(locks.step(1, Op::Lock(1)), Reply::Granted);
    assert_eq!(locks.step(3, Op::Lock(1)), Reply::Queued);
    assert_eq!(
        locks.changed().collect::<Vec<_>>(),
        [changed(1, 90, Reason::Waiter { task: 3, mutex: 1 })]
    );
    assert_eq!(
        (locks.owner(1), locks.waits_for(3), locks.waits_for(1)),
        (Some(1), Some(1), None)
    );
    assert_eq!(locks.step(1, Op::Unlock(1)), Reply::Handed(3));
    assert_eq!((locks.effective(1), locks.effective(4)), (Some(10), None));
}

#[test]
fn release_lists_priorities_and_new_owners() {
    let mut locks = four();
    for mutex in [1, 2, 4] {
        assert_eq!(locks.step(1, Op::Lock(mutex)), Reply::Granted);
    }
    assert_eq!(locks.step(2, Op::Lock(1)), Reply::Queued);
    assert_eq!(locks.step(4, Op::Lock(4)), Reply::Queued);
    assert_eq!(
        locks.changed_prios().collect::<Vec<_>>(),
        [ChangedPrio { task: 1, prio: 40 }]
    );
    assert_eq!(locks.handed().count(), 0);
    assert_eq!(locks.step(1, Op::ReleaseAll), Reply::Released(3));
    assert_eq!(
        locks.changed_prios().collect::<Vec<_>>(),
        [ChangedPrio { task: 1, prio: 10 }]
    );
    assert_eq!(
        locks.handed().collect::<Vec<_>>(),
        [
            HandedMutex { mutex: 1, task: 2 },
            HandedMutex { mutex: 4, task: 4 }
        ]
    );
}

#[test]
fn recursive_mutex_is_kept_until_it_is_unlocked_as_often() {
    let mut locks = Manager::new(&[10, 90], &[Protocol::InheritRecursive]).unwrap();
    assert_eq!((locks.count(1), locks.count(2)), (Some(0), None));
    for _ in 0..255 {
        assert_eq!(locks.step(1, Op::Lock(1)), Reply::Granted);
    }
    assert_eq!(locks.step(1, Op::Lock(1)), Reply::Refused(Refusal::Again));
    assert_eq!(locks.step(2, Op::Lock(1)), Reply::Queued);
    for count in (1..255).rev() {
        assert_eq!(locks.step(1, Op::Unlock(1)), Reply::Kept);
        assert_eq!(locks.changed().count(), 0);
        assert_eq!(locks.count(1), Some(count));
    }
    assert_eq!(locks.step(1, Op::Unlock(1)), Reply::Handed(2));
    assert_eq!(locks.count(1), Some(1));
}

#[test]
fn refusals_and_faults_are_told() {
    let mut locks = Manager::new(&[50], &[Protocol::Protect(40), Protocol::None]).unwrap();
    assert_eq!(locks.step(1, Op::Lock(1)), Reply::Refused(Refusal::Ceiling));
    assert_eq!(locks.step(1, Op::Lock(3)), Reply::Refused(Refusal::NoMutex));
    assert_eq!(
        locks.step(2, Op::ReleaseAll),
        Reply::Refused(Refusal::NoTask)
    );
    assert_eq!(
        locks.step(1, Op::Cancel(1)),
        Reply::Refused(Refusal::NotWaiting)
    );
    assert_eq!(locks.step(1, Op::Try(2)), Reply::Granted);
    assert_eq!(locks.step(1, Op::SetBase(1, 99)), Reply::Set);
    assert_eq!(locks.step(1, Op::SetCeiling(1, 99)), Reply::Set);
    assert_eq!(locks.step(1, Op::Lock(1)), Reply::Granted);
    assert_eq!(
        locks.step(1, Op::SetCeiling(2, 99)),
        Reply::Refused(Refusal::NotProtect)
    );
    assert_eq!(Manager::new(&[100], &[]).err(), Some(MakeFault::BadBase));
    assert_eq!(
        Manager::new(&[1], &[Protocol::Protect(0)]).err(),
        Some(MakeFault::BadProtocol)
    );
    assert_eq!(
        Manager::new(&[1; 257], &[]).err(),
        Some(MakeFault::TooManyTasks)
    );
}

#[test]
fn each_variant_has_its_number() {
    use Refusal::*;
    let refusals = [
        NoTask, Waiting, NoMutex, Deadlock, Ceiling, Busy, NotOwner, NotWaiting, Priority, Tickets,
        NotProtect, Again, NoProtocol, Protect,
    ];
    assert_eq!(names_from("REFUSED_NO_TASK"), refusals.len());
    for refusal in refusals {
        let number = number(&format!("REFUSED_{}", spelled(refusal))) as u8;
        assert_eq!(Refusal::of(number), refusal);
        let answer = c::Answer {
            kind: 8,
            refusal: number,
            number: 0,
            visits: 0,
            changed: 0,
        };
        assert_eq!(Reply::of(answer), Reply::Refused(refusal));
    }
    assert_eq!(Refusal::of(15), Other(15));
}

#[test]
fn each_reply_has_its_number() {
    use Reply::*;
    let replies = [
        Granted,
        Queued,
        Freed,
        Handed(7),
        Released(7),
        Withdrawn,
        Set,
        Refused(Refusal::Waiting),
        Kept,
    ];
    assert_eq!(names_from("NO_MANAGER"), replies.len() + 1);
    for reply in replies {
        let answer = c::Answer {
            kind: number(&spelled(reply)) as u8,
            refusal: 2,
            number: 7,
            visits: 9,
            changed: 0,
        };
        assert_eq!(Reply::of(answer), reply);
    }
    let later = c::Answer {
        kind: 10,
        refusal: 0,
        number: 0,
        visits: 0,
        changed: 0,
    };
    assert_eq!(Reply::of(later), Other(10));
}

#[test]
fn each_fault_has_its_number_and_text() {
    use MakeFault::*;
    let faults = [
        (TooManyTasks, "more than 256 tasks"),
        (TooManyMutexes, "more than 256 mutexes"),
        (BadBase, "a base priority isn't 1 to 99"),
        (BadProtocol, "a ceiling isn't 1 to 99"),
        (NoMemory, "out of memory"),
    ];
    assert_eq!(names_from("MADE"), faults.len() + 2); // and PIM_FAULT_OCCUPIED
    for (fault, text) in faults {
        let number = number(&format!("FAULT_{}", spelled(fault)));
        assert_eq!(MakeFault::of(u32::from(number)), Some(fault));
        assert_eq!(fault.to_string(), text);
    }
    assert_eq!(MakeFault::of(0), None);
    let many = vec![Protocol::None; 257];
    assert_eq!(Manager::new(&[1], &many).err(), Some(TooManyMutexes));
    assert!(Manager::new(&[1], &many[1..]).is_ok());
    assert_eq!(Manager::new(&[1; 257], &[]).err(), Some(TooManyTasks));
    assert!(Manager::new(&[1; 256], &[]).is_ok());
    assert_eq!(Manager::new(&[0], &[]).err(), Some(BadBase));
}

#[test]
fn each_protocol_and_reason_has_its_number() {
    let kinds = [
        (Protocol::None, 0),
        (Protocol::Inherit, 0),
        (Protocol::Protect(60), 60),
        (Protocol::InheritRecursive, 0),
    ];
    for (protocol, ceiling) in kinds {
        let passed = protocol.to_c();
        assert_eq!(
            (passed.kind, passed.ceiling),
            (number(&spelled(protocol)), ceiling)
        );
    }
    let waiter = Reason::Waiter { task: 4, mutex: 5 };
    for reason in [Reason::Base, Reason::Ceiling { mutex: 5 }, waiter] {
        let passed = c::Reason {
            kind: number(&format!("OF_{}", spelled(reason))),
            task: 4,
            mutex: 5,
        };
        assert_eq!(Reason::of(passed), reason);
    }
    assert_eq!(Reason::of(c::Reason::default()), Reason::Other(0));
}

#[test]
fn each_struct_has_the_layout_of_the_header() {
    let protocol = Protocol::None.to_c();
    let answer = c::Answer {
        kind: 0,
        refusal: 0,
        number: 0,
        visits: 0,
        changed: 0,
    };
    let one = c::ChangedTask::default();
    let prio = c::ChangedPrio::default();
    let handed = c::Handed::default();
    let why = &one.reason;
    assert_eq!(size_of::<c::Handle>(), 8);
    assert_eq!(
        (
            size_of::<c::Protocol>(),
            offset(&protocol, &protocol.ceiling)
        ),
        (4, 2)
    );
    assert_eq!(
        (size_of::<c::Answer>(), offset(&answer, &answer.visits)),
        (8, 4)
    );
    assert_eq!(
        (
            offset(&answer, &answer.refusal),
            offset(&answer, &answer.number)
        ),
        (1, 2)
    );
    assert_eq!((size_of::<c::ChangedTask>(), offset(&one, why)), (10, 4));
    assert_eq!((offset(&one, &one.task), offset(&one, &one.prio)), (0, 2));
    assert_eq!(
        (size_of::<c::ChangedPrio>(), offset(&prio, &prio.prio)),
        (4, 2)
    );
    assert_eq!(
        (size_of::<c::Handed>(), offset(&handed, &handed.task)),
        (4, 2)
    );
    assert_eq!(offset(&answer, &answer.changed), 6);
    assert_eq!(size_of::<c::Reason>(), 6);
    assert_eq!(
        (
            offset(why, &why.kind),
            offset(why, &why.task),
            offset(why, &why.mutex)
        ),
        (0, 2, 4)
    );
}

/// Tasks 1 to 4 at 10, 20, 30 and 40; mutexes 1 and 2 inherit, 3 has the ceiling 60, 4 is recursive
/// and 5 is a NONE one.
fn four() -> Manager {
    let protocols = [
        Protocol::Inherit,
        Protocol::Inherit,
        Protocol::Protect(60),
        Protocol::InheritRecursive,
        Protocol::None,
    ];
    Manager::new(&[10, 20, 30, 40], &protocols).unwrap()
}

fn listed(locks: &mut Manager) -> Vec<ChangedTask> {
    locks.changed().collect()
}

#[test]
fn each_step_does_what_it_asks_for() {
    let mut locks = four();
    let waits = |task| Reason::Waiter { task, mutex: 1 };
    assert_eq!(locks.step(1, Op::Try(1)), Reply::Granted);
    assert_eq!(locks.step(2, Op::Try(1)), Reply::Refused(Refusal::Busy));
    assert_eq!(locks.step(2, Op::Lock(2)), Reply::Granted);
    assert_eq!(locks.step(2, Op::Lock(1)), Reply::Queued);
    assert_eq!(listed(&mut locks), [changed(1, 20, waits(2))]);
    assert_eq!(
        locks.step(1, Op::Lock(2)),
        Reply::Refused(Refusal::Deadlock)
    );
    assert_eq!(locks.step(2, Op::Try(5)), Reply::Refused(Refusal::Waiting));
    assert_eq!(locks.step(4, Op::SetBase(2, 35)), Reply::Set);
    let both = [changed(1, 35, waits(2)), changed(2, 35, Reason::Base)];
    assert_eq!(listed(&mut locks), both);
    assert_eq!(
        (locks.waits_for(2), locks.effective(4)),
        (Some(1), Some(40))
    );
    assert_eq!(
        locks.step(9, Op::Cancel(2)),
        Reply::Refused(Refusal::NoTask)
    );
    assert_eq!(locks.step(4, Op::Cancel(2)), Reply::Withdrawn);
    assert_eq!(locks.waits_for(2), None);
    assert_eq!(listed(&mut locks), [changed(1, 10, Reason::Base)]);
    assert_eq!(
        locks.step(4, Op::Unlock(1)),
        Reply::Refused(Refusal::NotOwner)
    );
    assert_eq!(locks.step(1, Op::Unlock(1)), Reply::Freed);
    assert_eq!(
        locks.step(4, Op::SetBase(2, 100)),
        Reply::Refused(Refusal::Priority)
    );
}

#[test]
fn ceilings_are_reasons_and_are_set() {
    let mut locks = four();
    assert_eq!(locks.step(1, Op::Lock(3)), Reply::Granted);
    assert_eq!(
        listed(&mut locks),
        [changed(1, 60, Reason::Ceiling { mutex: 3 })]
    );
    assert_eq!(locks.step(1, Op::SetCeiling(3, 70)), Reply::Set);
    assert_eq!(
        listed(&mut locks),
        [changed(1, 70, Reason::Ceiling { mutex: 3 })]
    );
    assert_eq!(locks.step(1, Op::Lock(1)), Reply::Granted);
    assert_eq!(locks.step(1, Op::Lock(2)), Reply::Granted);
    assert_eq!(locks.step(4, Op::Lock(2)), Reply::Queued);
    assert_eq!(locks.step(1, Op::ReleaseAll), Reply::Released(3));
    assert_eq!(
        (locks.owner(2), locks.owner(1), locks.owner(6)),
        (Some(4), None, None)
    );
    assert_eq!((locks.waits_for(9), locks.waits_for(4)), (None, None));
    assert_eq!(
        (locks.count(2), locks.count(1), locks.count(6)),
        (Some(1), Some(0), None)
    );
    assert_eq!(
        (locks.tasks(), locks.effective(0), locks.effective(5)),
        (4, None, None)
    );
}

#[test]
fn kernel_asks_where_no_task_does() {
    let mut locks = four();
    assert_eq!(locks.step(1, Op::Lock(1)), Reply::Granted);
    assert_eq!(locks.step(2, Op::Lock(1)), Reply::Queued);
    assert_eq!(locks.step(KERNEL, Op::SetBase(2, 70)), Reply::Set);
    assert_eq!(locks.effective(1), Some(70));
    assert_eq!(locks.step(KERNEL, Op::Cancel(2)), Reply::Withdrawn);
    assert_eq!(locks.effective(1), Some(10));
    assert_eq!(locks.step(KERNEL, Op::SetCeiling(3, 70)), Reply::Set);
    assert_eq!(locks.step(1, Op::Lock(3)), Reply::Granted);
    assert_eq!(
        locks.step(KERNEL, Op::SetCeiling(3, 80)),
        Reply::Refused(Refusal::Busy)
    );
    assert_eq!(
        locks.step(KERNEL, Op::Lock(2)),
        Reply::Refused(Refusal::NoTask)
    );
}

#[test]
fn free_mutex_gets_another_protocol() {
    let mut locks = four();
    assert_eq!(locks.step(1, Op::Lock(3)), Reply::Granted);
    assert_eq!(
        locks.set_protocol(3, Protocol::Inherit),
        Err(Refusal::Busy)
    );
    assert_eq!(
        locks.set_protocol(6, Protocol::Inherit),
        Err(Refusal::NoMutex)
    );
    assert_eq!(
        locks.set_protocol(1, Protocol::Protect(100)),
        Err(Refusal::NoProtocol)
    );
    assert_eq!(listed(&mut locks).len(), 1);
    assert_eq!(locks.set_protocol(1, Protocol::Protect(70)), Ok(()));
    assert!(listed(&mut locks).is_empty());
    assert_eq!(locks.effective(1), Some(60));
    assert_eq!(locks.step(2, Op::Lock(1)), Reply::Granted);
    assert_eq!(
        listed(&mut locks),
        [changed(2, 70, Reason::Ceiling { mutex: 1 })]
    );
}

#[test]
fn waiting_task_adopts_a_free_mutex() {
    let mut locks = four();
    assert_eq!(locks.step(2, Op::Lock(1)), Reply::Granted);
    assert_eq!(locks.step(1, Op::Lock(1)), Reply::Queued);
    assert_eq!(locks.adopt(1, 2), Ok(()));
    assert!(listed(&mut locks).is_empty());
    assert_eq!((locks.owner(2), locks.count(2)), (Some(1), Some(1)));
    assert_eq!(locks.step(4, Op::Lock(2)), Reply::Queued);
    let waiter = |task, mutex| Reason::Waiter { task, mutex };
    assert_eq!(
        listed(&mut locks),
        [changed(1, 40, waiter(4, 2)), changed(2, 40, waiter(1, 1))]
    );
    assert_eq!(locks.adopt(9, 5), Err(Refusal::NoTask));
    assert_eq!(locks.adopt(1, 9), Err(Refusal::NoMutex));
    assert_eq!(locks.adopt(1, 3), Err(Refusal::Protect));
    assert_eq!(locks.adopt(1, 2), Err(Refusal::Busy));
    assert_eq!(listed(&mut locks).len(), 2);
}

#[test]
fn all_tasks_may_change_at_the_same_time() {
    let mut locks = four();
    assert_eq!(locks.step(1, Op::Lock(1)), Reply::Granted);
    assert_eq!(locks.step(2, Op::Lock(2)), Reply::Granted);
    assert_eq!(locks.step(3, Op::Lock(4)), Reply::Granted);
    assert_eq!(locks.step(2, Op::Lock(1)), Reply::Queued);
    assert_eq!(locks.step(3, Op::Lock(2)), Reply::Queued);
    assert_eq!(locks.step(4, Op::Lock(4)), Reply::Queued);
    assert_eq!(locks.step(1, Op::SetBase(4, 99)), Reply::Set);
    let waiter = |task, mutex| Reason::Waiter { task, mutex };
    let all = [
        changed(1, 99, waiter(2, 1)),
        changed(2, 99, waiter(3, 2)),
        changed(3, 99, waiter(4, 4)),
        changed(4, 99, Reason::Base),
    ];
    assert_eq!(listed(&mut locks), all);
}

/// A hundred managers of a megabyte each leave less than forty behind.
#[cfg(target_os = "linux")]
#[test]
fn dropped_manager_gives_its_memory_back() {
    let pages = || -> u64 {
        let sizes = std::fs::read_to_string("/proc/self/statm").unwrap();
        sizes.split(' ').nth(1).unwrap().parse().unwrap()
    };
    let many = vec![Protocol::Inherit; 256];
    let before = pages();
    for _ in 0..100 {
        drop(Manager::new(&[1; 256], &many).unwrap());
    }
    assert!(
        pages() < before + 10_000,
        "{before} pages before, {} after",
        pages()
    );
}
