//! What is asked of the worst tables, and what must come out by their shape.

use crate::asked::{Asked, Way};
use crate::shapes::{any, exactly, tested, tested_packed, Blocks, Shape};
use crate::shapes::{CHILD, GRANDCHILD, LEVELS, PARENT, ROOT};
use crate::work::Done;

/// One row of the worst tables.
#[derive(Clone, Copy, PartialEq, Eq, Debug)]
pub enum Row {
    ChildrenNext,
    ChildrenWithin,
    ChildrenTested,
    ChildrenPlain,
    ParentsNested,
    PathsUnique,
    PathsPlain,
    PathsCheck,
    DeepWithin,
    DeepTested,
    DeepJoined,
    TwinsInsert,
    TwinsNext,
    PackedInsert,
    PackedNext,
    TypesCheck,
}

impl Row {
    pub const ALL: [Row; 16] = [
        Row::ChildrenNext,
        Row::ChildrenWithin,
        Row::ChildrenTested,
        Row::ChildrenPlain,
        Row::ParentsNested,
        Row::PathsUnique,
        Row::PathsPlain,
        Row::PathsCheck,
        Row::DeepWithin,
        Row::DeepTested,
        Row::DeepJoined,
        Row::TwinsInsert,
        Row::TwinsNext,
        Row::PackedInsert,
        Row::PackedNext,
        Row::TypesCheck,
    ];

    /// Its shape and what is asked.
    pub fn name(self) -> &'static str {
        match self {
            Row::ChildrenNext => "one root: GN [child]",
            Row::ChildrenWithin => "one root: GNP [child]",
            Row::ChildrenTested => "one root: GN [root tested, child]",
            Row::ChildrenPlain => "one root: plain report [root], [child]",
            Row::ParentsNested => "parents: nested report [parent], [child]",
            Row::PathsUnique => "paths: GU of the last cell, 15 arguments",
            Row::PathsPlain => "paths: plain report, 14 + 1 arguments",
            Row::PathsCheck => "paths: table check",
            Row::DeepWithin => "level 15: GNP [level 15]",
            Row::DeepTested => "level 15: GNP, 14 levels tested",
            Row::DeepJoined => "level 15: joined report, 14 + 1 arguments",
            Row::TwinsInsert => "twins: ISRT + DLET at the end",
            Row::TwinsNext => "twins: GN [root tested]",
            Row::PackedInsert => "packed twins: ISRT + DLET at the end",
            Row::PackedNext => "packed twins: GN [root tested]",
            Row::TypesCheck => "32 types: table check",
        }
    }

    /// What its figure is the cost of.
    pub fn counted(self) -> &'static str {
        match self {
            Row::PathsUnique => "a call",
            Row::TwinsInsert | Row::PackedInsert => "a pair",
            _ if self.is_whole() => "whole",
            _ => "a step",
        }
    }

    /// Whether the time of a round is told as it is, and not divided by what was found.
    pub fn is_whole(self) -> bool {
        match self {
            Row::ChildrenPlain | Row::ParentsNested | Row::PathsPlain | Row::DeepJoined => true,
            Row::PathsCheck | Row::TypesCheck => true,
            Row::ChildrenNext | Row::ChildrenWithin | Row::ChildrenTested => false,
            Row::PathsUnique | Row::DeepWithin | Row::DeepTested => false,
            Row::TwinsInsert | Row::TwinsNext => false,
            Row::PackedInsert | Row::PackedNext => false,
        }
    }

    pub fn shape(self) -> Shape {
        match self {
            Row::ChildrenNext | Row::ChildrenWithin => Shape::Children,
            Row::ChildrenTested | Row::ChildrenPlain => Shape::Children,
            Row::ParentsNested => Shape::Parents,
            Row::PathsUnique | Row::PathsPlain | Row::PathsCheck => Shape::Paths,
            Row::DeepWithin | Row::DeepTested | Row::DeepJoined => Shape::Deep,
            Row::TwinsInsert | Row::TwinsNext => Shape::Twins,
            Row::PackedInsert | Row::PackedNext => Shape::Packed,
            Row::TypesCheck => Shape::Types,
        }
    }

    pub fn asked(self, blocks: &Blocks) -> Asked {
        let all_tested = |codes: std::ops::Range<u8>| codes.flat_map(tested).collect::<Vec<u8>>();
        match self {
            Row::ChildrenNext => Asked::Next(any(CHILD)),
            Row::ChildrenWithin => Asked::Within(any(ROOT), any(CHILD)),
            Row::ChildrenTested => Asked::Next([tested(ROOT), any(CHILD)].concat()),
            Row::ChildrenPlain => Asked::Report(Way::Plain, any(ROOT), any(CHILD)),
            Row::ParentsNested => Asked::Report(Way::Nested, any(PARENT), any(GRANDCHILD)),
            Row::PathsUnique => {
                let last = exactly(LEVELS, blocks.last_of(LEVELS));
                Asked::Unique([all_tested(1..LEVELS), last].concat())
            }
            Row::PathsPlain => Asked::Report(Way::Plain, all_tested(1..LEVELS), tested(LEVELS)),
            Row::PathsCheck | Row::TypesCheck => Asked::Check,
            Row::DeepWithin => Asked::Within(any(ROOT), any(LEVELS)),
            Row::DeepTested => Asked::Within(any(ROOT), all_tested(2..LEVELS + 1)),
            Row::DeepJoined => Asked::Report(Way::Joined, all_tested(1..LEVELS), tested(LEVELS)),
            Row::TwinsInsert | Row::PackedInsert => Asked::Insert(any(ROOT), blocks.codes.len()),
            Row::TwinsNext => Asked::Next(tested(ROOT)),
            Row::PackedNext => Asked::Next(tested_packed(ROOT)),
        }
    }

    /// What a round must come to, read off the shape and not off the store.
    pub fn expected(self, blocks: &Blocks) -> Done {
        match self {
            Row::ChildrenNext | Row::ChildrenWithin => blocks.every(CHILD),
            Row::ChildrenTested | Row::ChildrenPlain => blocks.every(CHILD),
            Row::ParentsNested => blocks.every(GRANDCHILD),
            Row::PathsUnique => one(blocks.last_of(LEVELS)),
            Row::PathsPlain | Row::DeepWithin => blocks.every(LEVELS),
            Row::DeepTested | Row::DeepJoined => blocks.every(LEVELS),
            Row::PathsCheck | Row::TypesCheck => one(0),
            Row::TwinsInsert | Row::PackedInsert => one(blocks.codes.len()),
            Row::TwinsNext | Row::PackedNext => blocks.every(ROOT),
        }
    }
}

fn one(sum: usize) -> Done {
    Done {
        count: 1,
        sum: sum as u64,
    }
}
