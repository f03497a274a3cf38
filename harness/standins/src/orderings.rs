//! Orders: the number on a T line or an X row, or the entries that an F line requires.

use crate::compute::SortOptions;
use crate::expressions::Column;
use crate::{PhysicalExpr, PhysicalExprRef};
use std::sync::Arc;

#[derive(Clone, Debug)]
pub struct PhysicalSortRequirement {
    pub expr: PhysicalExprRef,
    pub options: Option<SortOptions>,
}

#[derive(Clone, Debug)]
pub struct PhysicalSortExpr {
    pub expr: PhysicalExprRef,
}

impl From<PhysicalSortRequirement> for PhysicalSortExpr {
    fn from(requirement: PhysicalSortRequirement) -> Self {
        let expr = requirement.expr;
        PhysicalSortExpr { expr }
    }
}

#[derive(Clone, Debug)]
pub struct LexRequirement(Vec<PhysicalSortRequirement>);

impl LexRequirement {
    pub fn iter(&self) -> impl Iterator<Item = &PhysicalSortRequirement> {
        self.0.iter()
    }
}

impl From<LexRequirement> for Vec<PhysicalSortRequirement> {
    fn from(lex: LexRequirement) -> Self {
        lex.0
    }
}

#[derive(Clone, Debug)]
pub struct LexOrdering {
    /// An order of the sheet; 0 for required entries.
    pub number: u64,
    exprs: Vec<PhysicalSortExpr>,
}

impl LexOrdering {
    pub fn new(exprs: Vec<PhysicalSortExpr>) -> Option<Self> {
        let number = 0;
        (!exprs.is_empty()).then_some(LexOrdering { number, exprs })
    }

    /// An order that the sheet numbers.
    pub fn numbered(number: u64) -> Self {
        let exprs = vec![];
        LexOrdering { number, exprs }
    }

    /// The required entries that it holds, a bit each.
    pub fn mask(&self) -> u64 {
        let bit = |e: &PhysicalSortExpr| 1 << e.expr.numbers().2;
        self.exprs.iter().map(bit).sum()
    }
}

#[derive(Clone, Debug)]
pub enum OrderingRequirements {
    Hard(Vec<LexRequirement>),
    Soft(Vec<LexRequirement>),
}

impl OrderingRequirements {
    /// So many required entries: columns of the indices 0, 1 and so on.
    pub fn entries(count: usize) -> Option<Self> {
        let entry = |index| PhysicalSortRequirement {
            expr: Arc::new(Column::new("entry", index)) as Arc<dyn PhysicalExpr>,
            options: None,
        };
        let entries = LexRequirement((0..count).map(entry).collect());
        (count > 0).then(|| OrderingRequirements::Hard(vec![entries]))
    }

    fn alternatives(&self) -> &[LexRequirement] {
        match self {
            OrderingRequirements::Hard(lexes) | OrderingRequirements::Soft(lexes) => lexes,
        }
    }

    pub fn first(&self) -> &LexRequirement {
        &self.alternatives()[0]
    }

    pub fn into_single(self) -> LexRequirement {
        self.first().clone()
    }

    pub fn into_alternatives(self) -> (Vec<LexRequirement>, bool) {
        unreachable!()
    }

    pub fn new_alternatives(_: Vec<LexRequirement>, _soft: bool) -> Option<Self> {
        unreachable!()
    }
}

impl From<LexOrdering> for OrderingRequirements {
    fn from(_: LexOrdering) -> Self {
        unreachable!()
    }
}
