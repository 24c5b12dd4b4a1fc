//! Which submission an answer is for: a late one settles nothing.
mod night;

use night::{Night, MEMORY};
use zelezmut::guest::{Backing, Packet};
use zelezmut::{registers, Ended, HostAnswer, Record, Refused, Ticket, Waiting};

const ANSWERS: [HostAnswer; 2] = [HostAnswer::Good, HostAnswer::Failed];

/// Runs a submission that makes so many buffers until it waits.
fn submit(night: &mut Night, fence: u64, buffers: u32) -> Waiting {
    let create = |handle| Packet::CreateBuffer {
        handle,
        size: 64,
        backing: Some(Backing { id: 5, offset: 0 }),
    };
    let packets: Vec<Packet> = (1..=buffers).map(create).collect();
    night.submit(fence, &[5], &packets);
    assert_eq!(night.desk.waiting(), None);
    assert_eq!(night.run(100), Ended::Waiting);
    night.desk.waiting().unwrap()
}

fn answer(night: &mut Night, ticket: Ticket, answer: HostAnswer) -> Result<Ended, Refused> {
    night.answer(ticket, answer, 100)
}

/// All that can be seen of a night.
fn seen(night: &Night) -> (Vec<u32>, Vec<Record>, Option<Waiting>, Vec<u8>) {
    let value = |&offset| night.desk.read(offset).unwrap();
    (
        registers::READABLE.iter().map(value).collect(),
        night.desk.records().collect(),
        night.desk.waiting(),
        night.memory.clone(),
    )
}

#[test]
fn the_answer_for_a_submission_that_a_reset_dropped_does_not_settle_the_next() {
    for restart in [
        registers::CONTROL_RESET | registers::CONTROL_ENABLE,
        registers::CONTROL_RESET,
    ] {
        for late in ANSWERS {
            let mut night = Night::new();
            let a = submit(&mut night, 7, 2);
            assert_eq!((a.fence, a.records), (7, 2));

            night.start(restart);
            assert_eq!(night.desk.waiting(), None);
            assert_eq!(
                answer(&mut night, a.ticket, late),
                Err(Refused::NothingWaits)
            );
            night.write(registers::CONTROL, registers::CONTROL_ENABLE);
            let b = submit(&mut night, 8, 1);
            assert_eq!((b.fence, b.records), (8, 1));
            assert_ne!(a.ticket, b.ticket);

            let before = seen(&night);
            assert_eq!(
                answer(&mut night, a.ticket, late),
                Err(Refused::StaleTicket)
            );
            assert_eq!(seen(&night), before);
            assert_eq!(night.desk.completed_fence(), 0);
            assert_eq!(night.desk.last_error(), None);

            assert_eq!(
                answer(&mut night, b.ticket, HostAnswer::Good),
                Ok(Ended::Idle)
            );
            assert_eq!(night.desk.completed_fence(), 8);
        }
    }
}

#[test]
fn an_answer_given_twice_does_not_settle_the_next() {
    let mut night = Night::new();
    let a = submit(&mut night, 1, 1);
    assert_eq!(
        answer(&mut night, a.ticket, HostAnswer::Failed),
        Ok(Ended::Idle)
    );
    let again = answer(&mut night, a.ticket, HostAnswer::Failed);
    assert_eq!(again, Err(Refused::NothingWaits));
    let b = submit(&mut night, 2, 1);
    let again = answer(&mut night, a.ticket, HostAnswer::Failed);
    assert_eq!(again, Err(Refused::StaleTicket));
    assert_eq!(night.desk.waiting(), Some(b));
}

#[test]
fn another_length_comes_first_then_nothing_waits_then_the_ticket() {
    let mut night = Night::new();
    let over = submit(&mut night, 1, 1).ticket;
    night.start(registers::CONTROL_RESET | registers::CONTROL_ENABLE);
    let good = HostAnswer::Good;
    for ticket in [over, Ticket::NONE] {
        let mut resting = night.clone();
        let mut waiting = night.clone();
        let current = submit(&mut waiting, 2, 1);
        for length in [0, MEMORY - 1, MEMORY + 1] {
            let mut other = vec![0xEE; length];
            for desk in [&mut resting.desk, &mut waiting.desk] {
                let refused = desk.answer(&mut other, ticket, good, 100);
                assert_eq!(refused, Err(Refused::OtherMemory));
            }
            let refused = waiting.desk.answer(&mut other, current.ticket, good, 100);
            assert_eq!(refused, Err(Refused::OtherMemory));
            assert!(other.iter().all(|&byte| byte == 0xEE));
        }
        assert_eq!(
            answer(&mut resting, ticket, good),
            Err(Refused::NothingWaits)
        );
        assert_eq!(
            answer(&mut waiting, ticket, good),
            Err(Refused::StaleTicket)
        );
        assert_eq!(answer(&mut waiting, current.ticket, good), Ok(Ended::Idle));
    }
}

#[test]
fn a_ticket_is_kept_by_all_that_does_not_end_the_wait() {
    let mut night = Night::new();
    let a = submit(&mut night, 1, 1);
    night.write(registers::DOORBELL, 1);
    night.write(registers::IRQ_ENABLE, 3);
    night.write(registers::CONTROL, 0);
    night.desk.run(&mut night.memory, 100).unwrap();
    assert!(night.desk.write(registers::MAGIC, 0).is_err());
    assert!(answer(&mut night, Ticket::NONE, HostAnswer::Good).is_err());
    assert_eq!(night.desk.waiting(), Some(a));
    assert_eq!(
        answer(&mut night, a.ticket, HostAnswer::Good),
        Ok(Ended::Idle)
    );
}

#[test]
fn desks_and_clones_do_not_take_each_others_tickets() {
    let (mut one, mut other) = (Night::new(), Night::new());
    let (a, b) = (submit(&mut one, 1, 1), submit(&mut other, 1, 1));
    let mut clone = one.clone();
    let c = clone.desk.waiting().unwrap();
    assert_eq!((c.fence, c.records), (a.fence, a.records));
    for (night, own, others) in [
        (&mut one, a, [b, c]),
        (&mut other, b, [a, c]),
        (&mut clone, c, [a, b]),
    ] {
        for late in others {
            let refused = answer(night, late.ticket, HostAnswer::Good);
            assert_eq!(refused, Err(Refused::StaleTicket));
        }
        assert_eq!(answer(night, own.ticket, HostAnswer::Good), Ok(Ended::Idle));
    }
}
