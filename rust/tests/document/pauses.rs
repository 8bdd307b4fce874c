//! W-201, edges: what is held counted in three ways, a run paused after every label, and records at the edges of each refusal.
use crate::cases::{new_run, pause, resume_both};
use crate::model::record::{held_size, record_of};
use crate::model::run::store_size;
use crate::model::tree::{held, in_order, size, Labels, Node, ROOT};
use crate::random::Random;
use mastdock::{ffi, Refusal, Run, MAX_RECORD};

pub fn run() {
    let mut random = Random::of_case(201, 0, 0);
    walked();
    counted(&mut random);
    editions(&mut random);
    for edition in [1, 2] {
        after_every_label(&mut random, edition);
        cuts(&mut random, edition);
        forms(&mut random, edition);
        states(&mut random, edition);
        lengths(&mut random, edition);
        outputs(&mut random, edition);
    }
    no_edition();
    nothing_lent();
}

/// The held labels by walking the labelling order: of the first `made` nodes those whose node above is not among them.
fn walked() {
    for n in 1..=8 {
        let order: Vec<Node> = (0..size(n)).map(|k| in_order(n, ROOT, k)).collect();
        let place = |v: Node| order.iter().position(|w| *w == v).unwrap();
        let above: Vec<usize> =
            order.iter().map(|v| if *v == ROOT { order.len() } else { place(v.above(v.level - 1)) }).collect();
        for made in 0..=order.len() {
            let nodes: Vec<Node> = (0..made).filter(|k| above[*k] >= made).map(|k| order[k]).collect();
            assert_eq!(held(n, ROOT, made as u64), nodes);
        }
    }
}

/// How many they are, from the next node: as many as its position has one-bits, and two more before an inner node.
fn counted(random: &mut Random) {
    for _ in 0..20000 {
        let n = random.between(1, 40);
        let made = random.below(size(n));
        let next = in_order(n, ROOT, made);
        let count = u64::from(next.position.count_ones()) + if next.level < n { 2 } else { 0 };
        assert_eq!(held_size(n, made) as u64, 32 * count);
        assert_eq!(held_size(n, size(n)), 32);
    }
    // The last leaf of depth 40 has just been labelled: all 41 places hold a label.
    assert_eq!(held_size(40, (1 << 41) - 41), 1312);
}

/// Depths 1 to 8 at the smallest and the greatest memory level.
fn after_every_label(random: &mut Random, edition: u64) {
    for (n, m) in (1..=8).flat_map(|n| [(n, 0), (n, n)]) {
        let labels = Labels::of(edition, random.array(), n);
        let mut store = random.bytes(store_size(m));
        let mut run = new_run(edition, &labels.statement, n, m, &store);
        for _ in 0..size(n) {
            let paused = pause(random, &run);
            assert_eq!(paused, run);
            run = paused;
            assert_eq!(run.advance(1, &mut store).map(|made| made.labels), Ok(1));
        }
        assert_eq!(pause(random, &run).root(), Some(labels.root()));
        assert_eq!(store, labels.store(m));
    }
}

/// A run of these numbers with a label of its own in every place.
fn run_of(edition: u64, n: u64, m: u64, made: u64) -> Run {
    let mut held = [0; 1312];
    held.iter_mut().enumerate().for_each(|(i, byte)| *byte = (7 * i + 1) as u8);
    Run { statement: [201; 32], edition, depth: n, memory: m, made, held }
}

/// What the numbers, with so many bytes behind them, are refused with.
fn refused(random: &mut Random, numbers: &[u8], rest: usize) -> u64 {
    let bytes = [numbers, &vec![9; rest]].concat();
    resume_both(random, &bytes).err().unwrap_or(0)
}

/// Every cut of four records: 10 within the numbers, 18 after them.
fn cuts(random: &mut Random, edition: u64) {
    for run in [
        run_of(edition, 1, 0, 0),
        run_of(edition, 3, 2, 9),
        run_of(edition, 14, 14, 300),
        run_of(edition, 40, 14, (1 << 41) - 41),
    ] {
        let record = record_of(&run);
        let numbers = record.len() - 32 - held_size(run.depth, run.made);
        for cut in 0..record.len() {
            assert_eq!(resume_both(random, &record[..cut]), Err(if cut < numbers { 10 } else { 18 }));
        }
        for more in [1, 32, 64] {
            assert_eq!(resume_both(random, &[&record[..], &vec![0; more]].concat()), Err(18));
        }
    }
}

/// 12 right after the edition, before anything else is looked at; 11 for one in a longer form.
fn editions(random: &mut Random) {
    for edition in [&[0][..], &[3], &[4], &[127], &[0x80, 1], &[0x82, 1], &[0xc8, 1], &[0xff, 0x7f]] {
        for rest in [&[][..], &[0x80], &[1, 0, 0], &[41, 99, 99]] {
            assert_eq!(refused(random, &[edition, rest].concat(), 0), 12);
        }
    }
    for edition in [[0x81, 0], [0x82, 0], [0x80, 0], [0x82, 0x80], [0xff, 0xff]] {
        assert_eq!(refused(random, &[&edition[..], &[1, 0, 0]].concat(), 32), 11);
    }
    for bytes in [&[][..], &[0x81], &[0x82]] {
        assert_eq!(refused(random, bytes, 0), 10);
    }
}

/// Depth and memory level in two bytes, the labels made in up to seven; what ends within a number is 10.
fn forms(random: &mut Random, edition: u64) {
    let e = edition as u8;
    for (form, refusal) in [([0x83, 0], 11), ([0x80, 0x80], 11), ([0x80, 1], 4), ([0xff, 0x7f], 4)] {
        assert_eq!(refused(random, &[&[e][..], &form, &[0, 0]].concat(), 32), refusal);
        assert_eq!(refused(random, &[&[e, 3][..], &form, &[0]].concat(), 32), refusal);
        assert_eq!(refused(random, &[&[e][..], &form[..1]].concat(), 0), 10);
        assert_eq!(refused(random, &[&[e, 3][..], &form[..1]].concat(), 0), 10);
    }
    for groups in 2..=5 {
        let short = vec![0x80; groups - 1];
        assert_eq!(refused(random, &[&[e, 3, 0][..], &short].concat(), 0), 10);
        assert_eq!(refused(random, &[&[e, 3, 0][..], &short, &[0]].concat(), 32), 11);
        assert_eq!(refused(random, &[&[e, 3, 0][..], &short, &[1]].concat(), 32), 4);
    }
    for (form, refusal) in [
        (&[0x80, 0x80, 0x80, 0x80, 0x80, 0][..], 11),
        (&[0x80, 0x80, 0x80, 0x80, 0x80, 0x80], 11),
        (&[0x80, 0x80, 0x80, 0x80, 0x80, 0x80, 1], 11),
        (&[0xff, 0xff, 0xff, 0xff, 0xff, 0xff, 0x7f], 11),
        (&[0xff, 0xff, 0xff, 0xff, 0xff, 0x7f], 4),
        (&[0x80, 0x80, 0x80, 0x80, 0x80, 0x40], 4),
        (&[0xff, 0xff, 0xff, 0xff, 0xff, 0x3f], 0),
    ] {
        assert_eq!(refused(random, &[&[e, 40, 14][..], form].concat(), 64), refusal);
    }
    let finished = [e, 40, 14, 0xff, 0xff, 0xff, 0xff, 0xff, 0x3f];
    assert_eq!([0, 32, 63, 65, 1344].map(|rest| refused(random, &finished, rest)), [18; 5]);
}

/// 4 only after all four numbers, and before 18: depth, memory level, labels made.
fn states(random: &mut Random, edition: u64) {
    let e = edition as u8;
    for n in [0, 41, 127] {
        for rest in [0, 31, 32, 64] {
            assert_eq!(refused(random, &[e, n, 0, 0], rest), 4);
        }
        assert_eq!(refused(random, &[e, n, 0], 0), 10);
        assert_eq!(refused(random, &[e, n, 0, 0x80], 0), 10);
        assert_eq!(refused(random, &[e, n, 0, 0x80, 0], 32), 11);
        assert_eq!(refused(random, &[e, n, 0x80, 0, 0], 32), 11);
    }
    for (n, m, refusal) in
        [(40, 14, 0), (40, 15, 4), (40, 20, 4), (40, 21, 4), (14, 14, 0), (13, 13, 0), (13, 14, 4), (1, 2, 4)]
    {
        assert_eq!(refused(random, &[e, n, m, 0], 32), refusal);
        assert_eq!(refused(random, &[e, n, m, 0], 33), if refusal == 0 { 18 } else { 4 });
        assert_eq!(refused(random, &[e, n, m], 0), 10);
    }
    for n in 1..=5 {
        let all = size(n) as u8;
        assert_eq!([all, all + 1].map(|made| refused(random, &[e, n as u8, 0, made], 64)), [0, 4]);
    }
}

/// Each record of small trees is of just one length.
fn lengths(random: &mut Random, edition: u64) {
    let e = edition as u8;
    for (n, made) in (1..=4u64).flat_map(|n| (0..=size(n)).map(move |made| (n, made))) {
        let right = 32 + held_size(n, made);
        for rest in [0, right - 32, right - 1, right, right + 1, right + 32] {
            assert_eq!(refused(random, &[e, n as u8, 0, made as u8], rest), if rest == right { 0 } else { 18 });
        }
    }
}

/// Writing: 4 before 7, an output one byte short, just enough and longer, and places that hold no label.
fn outputs(random: &mut Random, edition: u64) {
    for run in [
        run_of(edition, 0, 0, 0),
        run_of(edition, 41, 0, 0),
        run_of(edition, 3, 4, 0),
        run_of(edition, 40, 15, 0),
        run_of(edition, 3, 1, 16),
        run_of(edition, 1, 0, u64::MAX),
    ] {
        for len in [0, 1, MAX_RECORD] {
            let mut out = vec![90; len];
            assert_eq!(run.record(&mut out), Err(Refusal::State));
            assert_eq!(out, vec![90; len]);
        }
    }
    for made in [0, 1, (1 << 41) - 42, (1 << 41) - 41, (1 << 41) - 3, (1 << 41) - 2, (1 << 41) - 1] {
        let run = run_of(edition, 40, 14, made);
        let record = record_of(&run);
        for short in [0, record.len() - 1] {
            let mut out = vec![90; short];
            assert_eq!(run.record(&mut out), Err(Refusal::ShortOutput));
            assert_eq!(out, vec![90; short]);
        }
        for beyond in [0, 1, 40] {
            let mut out = vec![90; record.len() + beyond];
            assert_eq!(run.record(&mut out), Ok(record.len()));
            assert_eq!(out, [&record[..], &vec![90; beyond]].concat());
        }
        pause(random, &run);
    }
    assert_eq!(record_of(&run_of(edition, 40, 14, (1 << 41) - 41)).len(), MAX_RECORD);
}

/// W-206: a run of an edition that does not exist is not written, with 4 before 7, and nothing of the output changes.
fn no_edition() {
    for edition in [0, 3, 4, 128, (1 << 32) + 1, u64::MAX] {
        for len in [0, 35, MAX_RECORD] {
            let mut out = vec![90; len];
            assert_eq!(run_of(edition, 1, 0, 0).record(&mut out), Err(Refusal::State));
            assert_eq!(out, vec![90; len]);
        }
    }
}

/// Null pointers, where the number of bytes is 0.
fn nothing_lent() {
    // SAFETY: no byte is lent.
    let recorded = unsafe { ffi::mastdock_run_record(run_of(2, 1, 0, 0), std::ptr::null_mut(), 0) };
    assert_eq!((recorded.refusal, recorded.size), (7, 0));
    // SAFETY: no byte is lent.
    let started = unsafe { ffi::mastdock_run_resume(std::ptr::null(), 0) };
    assert_eq!(started.refusal, 10);
}
