//! What a plan says of itself.

use crate::facts::Place;
use crate::{LexOrdering, LexRequirement, Partitioning, PhysicalExprRef, Result};

#[derive(Clone, Copy, Debug, PartialEq, Eq)]
pub enum EmissionType {
    Incremental,
    Final,
    Both,
}

#[derive(Clone, Copy, Debug, PartialEq, Eq)]
pub enum Boundedness {
    Bounded,
    Unbounded,
}

impl Boundedness {
    pub fn is_unbounded(&self) -> bool {
        *self == Boundedness::Unbounded
    }
}

/// A rewriting list: pairs from, to.
#[derive(Clone, Debug, Default)]
pub struct EquivalenceGroup(pub Vec<(PhysicalExprRef, PhysicalExprRef)>);

impl EquivalenceGroup {
    pub fn is_empty(&self) -> bool {
        self.0.is_empty()
    }

    pub fn normalize_expr(&self, expr: PhysicalExprRef) -> PhysicalExprRef {
        let rule = self.0.iter().find(|(from, _)| **from == *expr);
        rule.map_or(expr, |(_, to)| to.clone())
    }
}

#[derive(Clone, Debug, Default)]
pub struct EquivalenceProperties {
    pub group: EquivalenceGroup,
    pub place: Option<Place>,
    /// aggexact and aggsubset.
    pub aggregate: [bool; 2],
    pub order: Option<LexOrdering>,
}

impl EquivalenceProperties {
    pub fn eq_group(&self) -> &EquivalenceGroup {
        &self.group
    }

    fn place(&self) -> &Place {
        self.place.as_ref().expect("a child of the worked node")
    }

    pub fn ordering_satisfy_requirement(&self, _: LexRequirement) -> Result<bool> {
        let (place, row) = (self.place(), self.place().row());
        Ok(if place.after { row.aftermet } else { row.met })
    }

    pub fn is_expr_constant(&self, expr: &PhysicalExprRef) -> Option<()> {
        let held = self.place().row().constant >> expr.numbers().2 & 1 == 1;
        held.then_some(())
    }
}

#[derive(Clone, Debug)]
pub struct PlanProperties {
    equivalences: EquivalenceProperties,
    pub partitioning: Partitioning,
    pub emission: EmissionType,
    pub boundedness: Boundedness,
}

impl PlanProperties {
    pub fn new(
        equivalences: EquivalenceProperties,
        partitioning: Partitioning,
        emission: EmissionType,
        boundedness: Boundedness,
    ) -> Self {
        PlanProperties {
            equivalences,
            partitioning,
            emission,
            boundedness,
        }
    }

    pub fn equivalence_properties(&self) -> &EquivalenceProperties {
        &self.equivalences
    }

    /// The same at another place, with that place's facts.
    pub fn at(&self, place: Place) -> PlanProperties {
        let row = place.row();
        let mut new = self.clone();
        new.partitioning = Partitioning::of(&row, place.facts.target);
        new.equivalences.order = (row.order != 0).then(|| LexOrdering::numbered(row.order));
        new.equivalences.place = Some(place);
        new
    }

    /// The same after `replace_order_preserving_variants`.
    pub fn after(&self) -> PlanProperties {
        let mut new = self.clone();
        if let Some(place) = &mut new.equivalences.place {
            place.after = true;
        }
        new
    }
}
