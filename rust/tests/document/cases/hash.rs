use super::numbered;
use crate::model::sha256;
use crate::random::Random;
use mastdock::{digest, digest_blocks, ffi, Hash, Hashed};

fn message(random: &mut Random) -> Vec<u8> {
    let most = random.pick(&[1, 70, 130, 300, 2000]);
    let len = random.below(most);
    random.bytes(len as usize)
}

pub fn digests(random: &mut Random) -> u64 {
    let message = message(random);
    assert_eq!(numbered("digest", digest(&message)), Ok(sha256::digest(&message)));
    assert_eq!(digest_blocks(&message), Ok(sha256::hashed(&message)));
    2
}

/// A portion and the end, without its blocks and with them, on a state.
fn update_and_finish(hash: &mut Hash, model: &mut Hash, part: &[u8]) {
    assert_eq!(numbered("hash update", hash.update(part)), sha256::update(model, part));
    assert_eq!(hash, model);
    assert_eq!(numbered("hash finish", hash.finish()), sha256::finish(model).map(|end| end.digest));
    assert_eq!(numbered("hash finish", hash.finish_blocks()), sha256::finish(model));
}

pub fn portions(random: &mut Random) -> u64 {
    let (mut hash, mut model) = (Hash::new(), sha256::new());
    assert_eq!(hash, model);
    let mut all = vec![];
    let count = random.between(1, 6);
    for _ in 0..count {
        let part = message(random);
        all.extend(&part);
        update_and_finish(&mut hash, &mut model, &part);
    }
    assert_eq!(numbered("hash finish", hash.finish_blocks()), Ok(sha256::hashed(&all)));
    2 + 3 * count
}

pub fn any_state(random: &mut Random) -> u64 {
    let limit = (1 << 61) - 1;
    let part = message(random);
    let taken = match random.below(4) {
        0 => random.below(1000),
        1 => random.next(),
        2 => limit - part.len() as u64 + random.below(3),
        _ => limit + random.below(200) - 100,
    };
    let mut hash = Hash { words: std::array::from_fn(|_| random.next() as u32), tail: random.array(), taken };
    let mut model = hash.clone();
    update_and_finish(&mut hash, &mut model, &part);
    // The whole answer of the end: digest and blocks beside a refusal are zero, and the state is handed back as it was.
    // SAFETY: every state is allowed.
    let finished = unsafe { ffi::mastdock_hash_finish(hash.clone()) };
    assert_eq!(finished.hash, hash);
    let expected = sha256::finish(&model).unwrap_or(Hashed { digest: [0; 32], blocks: 0 });
    assert_eq!((finished.digest, finished.blocks), (expected.digest, expected.blocks));
    4
}
