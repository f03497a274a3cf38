//! What is required of a child, and how its rows are dealt out.

use crate::expressions::Column;
use crate::facts::{Phase, Place, Row};
use crate::{EquivalenceProperties, ExecutionPlan, PhysicalExprRef, Result};
use std::fmt;
use std::ops::Deref;
use std::sync::Arc;

#[derive(Clone, Debug)]
pub enum Distribution {
    UnspecifiedDistribution,
    SinglePartition,
    #[deprecated]
    HashPartitioned(Vec<PhysicalExprRef>),
    KeyPartitioned(Vec<PhysicalExprRef>),
}

impl Distribution {
    /// An exchange on its keys.
    pub fn create_partitioning(self, count: usize) -> Partitioning {
        match self {
            Distribution::KeyPartitioned(exprs) => {
                Partitioning::Hash(HashKeys { exprs, count }, count)
            }
            _ => unreachable!(),
        }
    }
}

impl fmt::Display for Distribution {
    fn fmt(&self, f: &mut fmt::Formatter<'_>) -> fmt::Result {
        fmt::Debug::fmt(self, f)
    }
}

/// Keys of a hash partitioning, with the count that the sheet gives beside `athash`.
#[derive(Clone, Debug)]
pub struct HashKeys {
    exprs: Vec<PhysicalExprRef>,
    count: usize,
}

impl Deref for HashKeys {
    type Target = [PhysicalExprRef];

    fn deref(&self) -> &[PhysicalExprRef] {
        &self.exprs
    }
}

#[derive(Clone, Debug)]
pub enum Partitioning {
    RoundRobinBatch(usize),
    Hash(HashKeys, usize),
    UnknownPartitioning(usize),
}

impl Partitioning {
    /// A hash partitioning by H or N of an I sheet.
    pub fn hash(exprs: Vec<PhysicalExprRef>) -> Self {
        let count = 2;
        Partitioning::Hash(HashKeys { exprs, count }, count)
    }

    /// What a row says: hashed into the target's partitions where `athash` is 1.
    pub fn of(row: &Row, target: usize) -> Self {
        let exprs = vec![Arc::new(Column::new("hashed", 0)) as PhysicalExprRef];
        let count = row.count;
        if row.athash {
            return Partitioning::Hash(HashKeys { exprs, count }, target);
        }
        match row.layout {
            0 if count.is_multiple_of(2) => Partitioning::RoundRobinBatch(count),
            _ if count == target => Partitioning::UnknownPartitioning(count),
            0 => Partitioning::UnknownPartitioning(count),
            _ => Partitioning::Hash(HashKeys { exprs, count }, count),
        }
    }

    pub fn partition_count(&self) -> usize {
        match self {
            Partitioning::RoundRobinBatch(count) | Partitioning::UnknownPartitioning(count) => {
                *count
            }
            Partitioning::Hash(keys, _) => keys.count,
        }
    }

    /// aggexact and aggsubset.
    pub fn satisfaction(
        &self,
        _: &Distribution,
        equivalences: &EquivalenceProperties,
        subset: bool,
    ) -> Satisfaction {
        Satisfaction(equivalences.aggregate[subset as usize])
    }
}

pub struct Satisfaction(bool);

impl Satisfaction {
    pub fn is_satisfied(&self) -> bool {
        self.0
    }
}

pub struct ChildSatisfactionOptions {
    subset: bool,
}

impl ChildSatisfactionOptions {
    #[expect(clippy::new_without_default)]
    pub fn new() -> Self {
        ChildSatisfactionOptions { subset: false }
    }

    pub fn with_allow_subset(self, subset: bool) -> Self {
        ChildSatisfactionOptions { subset }
    }
}

pub struct InputDistributionRequirements(Vec<Distribution>);

impl InputDistributionRequirements {
    pub fn new(per_child: Vec<Distribution>) -> Self {
        InputDistributionRequirements(per_child)
    }

    pub fn into_per_child(self) -> Vec<Distribution> {
        self.0
    }

    pub fn child_distribution(&self, child: usize) -> Option<&Distribution> {
        self.0.get(child)
    }

    /// `exact`, or `subset` where subsets are allowed.
    pub fn child_satisfaction(
        &self,
        _child: usize,
        plan: &dyn ExecutionPlan,
        options: ChildSatisfactionOptions,
    ) -> Result<Satisfaction> {
        let row = Place::of(plan).row();
        Ok(Satisfaction(match options.subset {
            true => row.subset,
            false => row.exact,
        }))
    }

    /// The mask of the set of children that have a relationship exchange.
    pub fn unsatisfied_co_partitioned_children(
        &self,
        _name: &str,
        children: &[&dyn ExecutionPlan],
    ) -> Result<Vec<usize>> {
        let places: Vec<Place> = children.iter().map(|child| Place::of(*child)).collect();
        let Some(first) = places.first() else {
            return Ok(vec![]);
        };
        let set: usize = places.iter().map(|p| (p.form >> 3) << p.index).sum();
        let mask = first.facts.masks[set];
        first.facts.phase.set(match mask {
            0 => Phase::Orders,
            _ => Phase::Relationships,
        });
        Ok((0..places.len()).filter(|i| mask >> i & 1 == 1).collect())
    }
}
