//! Memory lent to a call, with a margin on both sides that no call may change.
use crate::random::Random;

const MARGIN: usize = 16;

pub struct Lent<A> {
    all: Vec<A>,
    front: Vec<A>,
    back: Vec<A>,
}

impl Lent<u8> {
    pub fn bytes(random: &mut Random, content: &[u8]) -> Lent<u8> {
        Lent::new(random.bytes(MARGIN), content, random.bytes(MARGIN))
    }
}

impl Lent<u64> {
    pub fn words(random: &mut Random, content: &[u64]) -> Lent<u64> {
        Lent::new(random.words(MARGIN), content, random.words(MARGIN))
    }
}

impl<A: Copy + PartialEq> Lent<A> {
    fn new(front: Vec<A>, content: &[A], back: Vec<A>) -> Lent<A> {
        let all = [&front[..], content, &back].concat();
        Lent { all, front, back }
    }

    /// What is lent.
    pub fn get(&mut self) -> &mut [A] {
        let end = self.all.len() - MARGIN;
        &mut self.all[MARGIN..end]
    }

    /// After a call: the content is the expected one and the margins are as they were.
    pub fn is_now(&self, expected: &[A]) {
        let (front, rest) = self.all.split_at(MARGIN);
        let (content, back) = rest.split_at(rest.len() - MARGIN);
        assert!(content == expected, "lent memory differs from the model's");
        assert!(front == self.front && back == self.back, "memory beside the lent one was changed");
    }
}
