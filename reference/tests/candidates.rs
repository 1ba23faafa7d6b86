//! Document 02, No. 5, "Readings of another candidate": the step of one head, the
//! record's ranges, and the fitting shop's case.

use std::fs;

use reference::candidates::{Watch, WAYS};
use reference::program::read_words;
use reference::record::{median, Record};
use reference::sheet::run;
use reference::step::{step, Frame, Input};
use reference::words::{Cause, Reading};

/// An action without a frame, at reading 100.
fn act(action: u32) -> Input {
    Input {
        action,
        reading: 100,
        ..Input::default()
    }
}

/// A start of the sender, delivered at this reading.
fn start(sender: u32, reading: u32) -> Input {
    Input {
        action: 2,
        reading,
        sender,
        ..Input::default()
    }
}

/// A vote at reading 100 that names a head and carries a reading.
fn vote(sender: u32, serial: u32, named: u32, reading: u32) -> Input {
    Input {
        action: 5,
        reading: 100,
        sender,
        serial,
        carried_head: named,
        carried_reading: reading,
        none: false,
    }
}

/// The record after actions that are all accepted.
fn after(record: &Record, inputs: &[Input]) -> Record {
    let take = |record: Record, input: &Input| step(&record, input).unwrap().0;
    inputs.iter().fold(record.clone(), take)
}

/// The vote readings of the first seven senders.
fn readings(record: &Record) -> [Option<u32>; 7] {
    [0, 1, 2, 3, 4, 5, 6].map(|p| record.kept[p].vote_reading.map(|r| r.0))
}

/// Serial and latest vote of a sender.
fn taken(record: &Record, sender: usize) -> (Option<u32>, Option<u32>) {
    let kept = record.kept[sender];
    (kept.vote_serial, kept.latest_vote)
}

/// Head 6 of seven, which has the starts of 5 and 2 at 50 and 20, and has taken votes
/// for 5 from heads 5, 4 and 3.
fn for_five() -> Record {
    let votes = [vote(5, 0, 5, 15), vote(4, 0, 5, 14), vote(3, 0, 5, 13)];
    let starts = [start(2, 20), start(5, 50)];
    after(&Record::fresh(7, 2, 6), &[&starts[..], &votes].concat())
}

#[test]
fn changing_candidate_drops_the_others() {
    let record = for_five();
    assert_eq!(record.candidate, Some(5));
    let held = [None, None, None, Some(13), Some(14), Some(15), Some(50)];
    assert_eq!(readings(&record), held);
    let (changed, sent) = step(&record, &vote(2, 0, 2, 12)).unwrap();
    let voted = Frame::Vote {
        serial: 1,
        candidate: 2,
        reading: Some(Reading(20)),
    };
    assert_eq!((changed.candidate, sent), (Some(2), Some(voted)));
    let left = [None, None, Some(12), None, None, None, Some(20)];
    assert_eq!(readings(&changed), left);
    // Serials and latest votes stay.
    for sender in 3..6 {
        assert_eq!(taken(&changed, sender), (Some(0), Some(5)));
    }
    assert_eq!(taken(&changed, 2), (Some(0), Some(2)));
    assert!(changed.in_ranges());
    // The median is of 12 and 20; with 13, 14 and 15 it would be 14.
    let turned = after(&changed, &[act(6), act(7)]);
    assert_eq!(turned.adjustment, Reading(16));
}

#[test]
fn the_sender_of_the_change_keeps_its_new_reading() {
    // Head 4 had voted for 5; now its vote names 2.
    let changed = after(&for_five(), &[vote(4, 1, 2, 24)]);
    let left = [None, None, None, None, Some(24), None, Some(20)];
    assert_eq!(readings(&changed), left);
    assert_eq!(taken(&changed, 4), (Some(1), Some(2)));
    // With the mark "none" it has none.
    let none = Input {
        none: true,
        ..vote(4, 1, 2, 0)
    };
    let changed = after(&for_five(), &[none]);
    assert_eq!(
        readings(&changed),
        [None, None, None, None, None, None, Some(20)]
    );
    assert_eq!(taken(&changed, 4), (Some(1), Some(2)));
}

/// Latest votes that name the new candidate are kept as they are. In a record in its
/// ranges their senders have no reading before the change, and none comes of it.
#[test]
fn latest_votes_for_the_new_candidate_stay() {
    let mut record = for_five();
    for sender in [0, 3] {
        record.kept[sender].latest_vote = Some(2);
        record.kept[sender].vote_reading = None;
    }
    let changed = after(&record, &[vote(2, 0, 2, 12)]);
    let left = [None, None, Some(12), None, None, None, Some(20)];
    assert_eq!(readings(&changed), left);
    assert_eq!([0, 3].map(|p| changed.kept[p].latest_vote), [Some(2); 2]);
    // They count for an early close.
    let votes = [vote(1, 0, 2, 21), vote(4, 1, 2, 24), vote(5, 1, 2, 25)];
    let spoken = after(&changed, &votes);
    assert!(spoken.vote_early);
    let held = [None, Some(21), Some(12), None, Some(24), Some(25), Some(20)];
    assert_eq!(readings(&spoken), held);
}

#[test]
fn a_vote_for_another_candidate_leaves_none() {
    let record = after(&for_five(), &[vote(2, 0, 2, 12)]);
    let other = after(&record, &[vote(1, 3, 4, 99)]);
    assert_eq!((readings(&other)[1], other.candidate), (None, Some(2)));
    assert_eq!(taken(&other, 1), (Some(3), Some(4)), "taken all the same");
    // The same vote again, or an earlier one, is without effect.
    let again = after(&other, &[vote(1, 3, 2, 98), vote(1, 2, 2, 97)]);
    assert_eq!(again, other);
    // A later one for the candidate counts, one for another takes the reading away.
    let named = after(&other, &[vote(1, 4, 2, 21)]);
    assert_eq!(readings(&named)[1], Some(21));
    let left = after(&named, &[vote(1, 5, 3, 96)]);
    assert_eq!(
        (readings(&left)[1], taken(&left, 1)),
        (None, (Some(5), Some(3)))
    );
    let rest = [2, 3, 4, 5, 6].map(|p| left.kept[p]);
    assert_eq!(
        rest,
        [2, 3, 4, 5, 6].map(|p| record.kept[p]),
        "of no other sender"
    );
    // After the vote close nothing is taken.
    let closed = after(&named, &[act(6)]);
    assert_eq!(after(&closed, &[vote(1, 5, 3, 96)]), closed);
}

#[test]
fn a_sender_that_was_dropped_votes_for_the_new_candidate() {
    let changed = after(&for_five(), &[vote(2, 0, 2, 12)]);
    // Its old vote once more, and then its new one.
    let stale = after(&changed, &[vote(4, 0, 5, 14)]);
    assert_eq!(stale, changed);
    let back = after(&stale, &[vote(4, 1, 2, 24)]);
    assert_eq!(readings(&back)[4], Some(24));
    // A change to a third candidate drops it once more.
    let third = after(&back, &[vote(0, 0, 0, 10)]);
    let left = [Some(10), None, None, None, None, None, None];
    assert_eq!(readings(&third), left, "no start of head 0 is held");
}

/// "it is also h's own vote reading": the own one is that of its last vote.
#[test]
fn own_reading() {
    let record = after(&Record::fresh(7, 2, 6), &[start(5, 50), vote(2, 0, 2, 12)]);
    assert_eq!(readings(&record)[6], None, "no start of head 2 is held");
    // A later start does not change it.
    let late = after(
        &record,
        &[Input {
            reading: 100,
            ..start(2, 0)
        }],
    );
    assert_eq!(readings(&late)[6], None);
    let first = after(&Record::fresh(7, 2, 6), &[start(5, 50), vote(2, 0, 5, 12)]);
    assert_eq!(readings(&first)[6], Some(50));
    assert_eq!(readings(&after(&first, &[vote(2, 1, 2, 22)]))[6], None);
    // A head's first choice, itself: an own reading kept before gives way.
    let mut hand_made = Record {
        start_sent: true,
        confirmed: true,
        ..Record::fresh(7, 0, 6)
    };
    hand_made.kept[6].vote_reading = Some(Reading(7));
    hand_made.kept[6].start_reading = Some(Reading(60));
    hand_made.kept[3].latest_vote = Some(6);
    let own = after(&hand_made, &[act(4)]);
    assert_eq!((own.candidate, readings(&own)[6]), (Some(6), Some(60)));
    assert_eq!(taken(&own, 3), (None, Some(6)));
}

#[test]
fn record_ranges() {
    let cause = |change: &dyn Fn(&mut Record)| {
        let mut record = for_five();
        change(&mut record);
        step(&record, &act(0)).err()
    };
    assert_eq!(cause(&|_| ()), None);
    let outside = Some(Cause(10));
    // Another sender's reading, and its latest vote names another head or nobody.
    assert_eq!(cause(&|r| r.kept[4].latest_vote = Some(2)), outside);
    assert_eq!(cause(&|r| r.kept[4].latest_vote = Some(6)), outside);
    assert_eq!(cause(&|r| r.kept[4].latest_vote = None), outside);
    assert_eq!(
        cause(&|r| r.kept[0].vote_reading = Some(Reading(0))),
        outside
    );
    // With the right latest vote, or without the reading, it is in its ranges.
    let kept = |r: &mut Record| {
        r.kept[0].vote_reading = Some(Reading(0));
        r.kept[0].latest_vote = Some(5);
    };
    assert_eq!(cause(&kept), None);
    let dropped = |r: &mut Record| {
        r.kept[4].latest_vote = Some(2);
        r.kept[4].vote_reading = None;
    };
    assert_eq!(cause(&dropped), None);
    // Another candidate, or none.
    assert_eq!(cause(&|r| r.candidate = Some(4)), outside);
    assert_eq!(cause(&|r| (r.candidate, r.votes_sent) = (None, 0)), outside);
    // The head's own reading is not asked.
    assert_eq!(cause(&|r| r.kept[6].latest_vote = Some(2)), None);
    assert_eq!(cause(&|r| r.kept[6].latest_vote = None), None);
    // Cause 10 comes before cause 6.
    let mut bad = for_five();
    bad.kept[4].latest_vote = None;
    assert_eq!(step(&bad, &act(10)), Err(Cause(10)));
}

/// Without a candidate no other sender's reading is kept, whoever its latest vote
/// names; the own one may be.
#[test]
fn record_ranges_without_a_candidate() {
    let with = |sender: usize, latest_vote: Option<u32>| {
        let mut record = Record::fresh(4, 1, 3);
        record.kept[sender].vote_reading = Some(Reading(9));
        record.kept[sender].latest_vote = latest_vote;
        record.in_ranges()
    };
    assert!(!with(0, None));
    assert!(!with(0, Some(0)));
    assert!(!with(2, Some(3)));
    assert!(with(3, None));
    assert!(with(3, Some(0)));
}

/// "a head voted for head 5, stopped, and the others went on to head 2, yet its reading
/// of head 5's start entered the median"
#[test]
fn the_fitting_shops_case() {
    let path = concat!(
        env!("CARGO_MANIFEST_DIR"),
        "/../samples/other-candidate.sheet"
    );
    let words = read_words(&fs::read(path).unwrap()).unwrap();
    let ended = run(&words, None).unwrap();
    let stopped = &ended.records[4];
    assert_eq!((stopped.candidate, stopped.outcome()), (Some(5), 0));
    let its = stopped.kept[4].vote_reading.unwrap();
    assert_eq!(Some(its), stopped.kept[5].start_reading);
    let adjuster = &ended.records[0];
    assert_eq!((adjuster.candidate, adjuster.adjuster), (Some(2), Some(0)));
    assert_eq!(adjuster.kept[4].latest_vote, Some(5));
    assert_eq!(adjuster.kept[4].vote_reading, None);
    let held = adjuster.vote_readings();
    assert_eq!(held.len(), 5);
    assert_eq!(adjuster.adjustment, Reading(1435));
    // With it, 1394 and 1435 would be in the middle.
    let all = [&held[..], &[its]].concat();
    assert_eq!((its, median(&all)), (Reading(1394), Some(Reading(1414))));
    let ways = Watch::over(&words).ways;
    for way in [0, 2, 4, 5, 6, 7] {
        assert!(ways.contains(&WAYS[way]), "{}", WAYS[way]);
    }
}
