//! The layout that the library was compiled with: the assertions of `include/mastdock.h`.
use crate::ffi::*;
use crate::{Hash, Opening, Place, Run, Unit, Writing};
use std::mem::{align_of, offset_of, size_of};

/// Size and alignment of a struct, and the offset of each field.
macro_rules! layout {
    ($name:ty, $size:literal, $align:literal, $($field:ident $offset:literal),*) => {
        const _: () = {
            assert!(size_of::<$name>() == $size);
            assert!(align_of::<$name>() == $align);
            $(assert!(offset_of!($name, $field) == $offset);)*
        };
    };
}

const _: () = assert!(size_of::<usize>() == 8);
layout!(Hash, 104, 8, words 0, tail 32, taken 96);
layout!(HashUpdated, 112, 8, refusal 0, hash 8);
layout!(HashFinished, 152, 8, refusal 0, blocks 8, digest 16, hash 48);
layout!(Digested, 48, 8, refusal 0, blocks 8, digest 16);
layout!(Run, 1376, 8, statement 0, edition 32, depth 40, memory 48, made 56, held 64);
layout!(RunStarted, 1384, 8, refusal 0, run 8);
layout!(RunAdvanced, 1400, 8, refusal 0, labels 8, blocks 16, run 24);
layout!(RunRecorded, 16, 8, refusal 0, size 8);
layout!(Unit, 11024, 8, count 0, last 8, runs 16);
layout!(UnitAdvanced, 11048, 8, refusal 0, labels 8, blocks 16, unit 24);
layout!(Opening, 1384, 8, statement 0, edition 32, depth 40, memory 48, leaf 56, made 64, held 72);
layout!(OpeningStarted, 1392, 8, refusal 0, opening 8);
layout!(OpeningAdvanced, 1408, 8, refusal 0, labels 8, blocks 16, opening 24);
layout!(Challenged, 16, 8, refusal 0, leaf 8);
layout!(Place, 16, 8, offset 0, length 8);
layout!(Writing, 1432, 8, root 0, count 32, number 40, opening 48);
layout!(WritingStarted, 1440, 8, refusal 0, writing 8);
layout!(WritingAdvanced, 1456, 8, refusal 0, labels 8, blocks 16, writing 24);
layout!(Planned, 16, 8, refusal 0, count 8);
layout!(HeadRead, 32, 8, refusal 0, edition 8, depth 16, count 24);
layout!(Clash, 240, 8, i 0, j 8, level 16, first 24, second 129, zero 234);
layout!(Compared, 248, 8, refusal 0, clash 8);
layout!(Drawn, 264, 8, kind 0, code 8, count 16, clash 24);
