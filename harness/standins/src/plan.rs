//! Plans: operators that carry a sheet's facts, and the context that the files walk over.

use crate::config::ConfigOptions;
use crate::execution_plan::{Boundedness, EmissionType};
use crate::facts::Place;
use crate::tree_node::TreeNodeRecursion;
use crate::{
    DataFusionError, Distribution, EquivalenceProperties, InputDistributionRequirements,
    LexOrdering, OrderingRequirements, Partitioning, PhysicalExprRef, PlanProperties, Result,
    SendableRecordBatchStream, Statistics, StatisticsArgs, TaskContext, projection::ProjectionExec,
};
use std::any::Any;
use std::fmt::Debug;
use std::sync::Arc;

/// Names of columns.
#[derive(Clone, Debug, Default)]
pub struct Schema {
    names: Vec<Field>,
}

#[derive(Clone, Debug)]
pub struct Field(String);

impl Field {
    pub fn name(&self) -> &String {
        &self.0
    }
}

impl Schema {
    pub fn new(names: impl Iterator<Item = String>) -> Arc<Schema> {
        let names = names.map(Field).collect();
        Arc::new(Schema { names })
    }

    pub fn fields(&self) -> &[Field] {
        &self.names
    }

    pub fn index_of(&self, name: &str) -> Result<usize> {
        let place = self.names.iter().position(|field| field.0 == name);
        place.ok_or_else(|| DataFusionError(format!("no field {name}")))
    }
}

/// What every stand-in for an operator carries.
#[derive(Clone, Debug)]
pub struct Node {
    /// The T line's place from 1; 0 where a file made it.
    pub id: usize,
    pub fetch: Option<usize>,
    pub children: Vec<Arc<dyn ExecutionPlan>>,
    pub properties: Arc<PlanProperties>,
    pub needs: Vec<Distribution>,
    pub gains: Vec<bool>,
    pub maintains: Vec<bool>,
    pub orders: Vec<Option<OrderingRequirements>>,
    pub schema: Arc<Schema>,
    /// A better window is found for it; and whether it is that one.
    pub window: bool,
    pub better: bool,
}

impl Node {
    pub fn new(children: Vec<Arc<dyn ExecutionPlan>>, properties: PlanProperties) -> Self {
        Node {
            id: 0,
            fetch: None,
            children,
            properties: Arc::new(properties),
            needs: vec![],
            gains: vec![],
            maintains: vec![],
            orders: vec![],
            schema: Arc::default(),
            window: false,
            better: false,
        }
    }

    /// A node without facts of its own.
    pub fn bare(
        children: Vec<Arc<dyn ExecutionPlan>>,
        equivalences: EquivalenceProperties,
    ) -> Self {
        let partitioning = Partitioning::UnknownPartitioning(1);
        let (emission, boundedness) = (EmissionType::Incremental, Boundedness::Bounded);
        let properties = PlanProperties::new(equivalences, partitioning, emission, boundedness);
        Node::new(children, properties)
    }

    /// A node that a file makes on top of another. `added` is what its form gains by it.
    pub fn on(input: Arc<dyn ExecutionPlan>, added: usize, coalesced: bool) -> Self {
        let properties = input.properties();
        let properties = match &properties.equivalence_properties().place {
            Some(place) => properties.at(place.under(added, coalesced)),
            None => PlanProperties::clone(properties),
        };
        Node::new(vec![input], properties)
    }

    /// The same over other children: it emits what they say that it does.
    pub fn over(&self, children: Vec<Arc<dyn ExecutionPlan>>) -> Self {
        let mut properties = self.properties.after();
        if let Some(child) = children.first() {
            properties.emission = child.pipeline_behavior();
        }
        let properties = Arc::new(properties);
        Node {
            children,
            properties,
            ..self.clone()
        }
    }

    pub fn place(&self) -> Option<&Place> {
        self.properties.equivalence_properties().place.as_ref()
    }
}

pub struct ReplaceChildrenOptions;

pub enum ChildrenPropertiesMode {
    Recompute,
}

impl ReplaceChildrenOptions {
    pub fn new(_: ChildrenPropertiesMode) -> Self {
        ReplaceChildrenOptions
    }
}

pub enum ChildStats {
    At(Option<usize>),
}

/// An operator. What a file doesn't implement itself is answered from the node.
pub trait ExecutionPlan: Any + Debug {
    fn name(&self) -> &str;

    fn node(&self) -> &Node {
        unreachable!()
    }

    fn with_node(&self, _: Node) -> Arc<dyn ExecutionPlan> {
        unreachable!()
    }

    fn properties(&self) -> &Arc<PlanProperties> {
        &self.node().properties
    }

    fn children(&self) -> Vec<&Arc<dyn ExecutionPlan>> {
        self.node().children.iter().collect()
    }

    fn schema(&self) -> Arc<Schema> {
        Arc::clone(&self.node().schema)
    }

    fn benefits_from_input_partitioning(&self) -> Vec<bool> {
        self.node().gains.clone()
    }

    fn required_input_distribution(&self) -> Vec<Distribution> {
        self.node().needs.clone()
    }

    fn input_distribution_requirements(&self) -> InputDistributionRequirements {
        InputDistributionRequirements::new(self.node().needs.clone())
    }

    fn maintains_input_order(&self) -> Vec<bool> {
        self.node().maintains.clone()
    }

    fn required_input_ordering(&self) -> Vec<Option<OrderingRequirements>> {
        self.node().orders.clone()
    }

    fn replace_children(
        self: Arc<Self>,
        children: Vec<Arc<dyn ExecutionPlan>>,
        _: ReplaceChildrenOptions,
    ) -> Result<Arc<dyn ExecutionPlan>> {
        Ok(self.with_node(self.node().over(children)))
    }

    fn with_new_children(
        self: Arc<Self>,
        _: Vec<Arc<dyn ExecutionPlan>>,
    ) -> Result<Arc<dyn ExecutionPlan>> {
        unreachable!()
    }

    /// The child split at its source, where its F line says that it can be.
    fn repartitioned(&self, _: usize, _: &ConfigOptions) -> Result<Option<Arc<dyn ExecutionPlan>>> {
        let Some(place) = self.node().place().filter(|place| place.child().splits) else {
            return Ok(None);
        };
        let properties = Arc::new(self.node().properties.at(place.split()));
        let node = self.node().clone();
        Ok(Some(self.with_node(Node { properties, ..node })))
    }

    fn execute(&self, _: usize, _: Arc<TaskContext>) -> Result<SendableRecordBatchStream> {
        unreachable!()
    }

    fn child_stats_requests(&self, _: Option<usize>) -> Vec<ChildStats> {
        unreachable!()
    }

    fn statistics_from_inputs(
        &self,
        _: &[Arc<Statistics>],
        _: &StatisticsArgs,
    ) -> Result<Arc<Statistics>> {
        unreachable!()
    }

    fn try_swapping_with_projection(
        &self,
        _: &ProjectionExec,
    ) -> Result<Option<Arc<dyn ExecutionPlan>>> {
        unreachable!()
    }

    fn fetch(&self) -> Option<usize> {
        self.node().fetch
    }

    fn apply_expressions(
        &self,
        _: &mut dyn FnMut(&PhysicalExprRef) -> Result<TreeNodeRecursion>,
    ) -> Result<TreeNodeRecursion> {
        unreachable!()
    }
}

impl dyn ExecutionPlan {
    pub fn downcast_ref<T: ExecutionPlan>(&self) -> Option<&T> {
        (self as &dyn Any).downcast_ref()
    }

    pub fn is<T: ExecutionPlan>(&self) -> bool {
        (self as &dyn Any).is::<T>()
    }
}

pub trait ExecutionPlanProperties {
    fn output_partitioning(&self) -> &Partitioning;
    fn output_ordering(&self) -> Option<&LexOrdering>;
    fn boundedness(&self) -> Boundedness;
    fn pipeline_behavior(&self) -> EmissionType;
    fn equivalence_properties(&self) -> &EquivalenceProperties;
}

impl ExecutionPlanProperties for Arc<dyn ExecutionPlan> {
    fn output_partitioning(&self) -> &Partitioning {
        &self.properties().partitioning
    }

    fn output_ordering(&self) -> Option<&LexOrdering> {
        self.equivalence_properties().order.as_ref()
    }

    fn boundedness(&self) -> Boundedness {
        self.properties().boundedness
    }

    fn pipeline_behavior(&self) -> EmissionType {
        let place = self.equivalence_properties().place.as_ref();
        let told = place.and_then(Place::emission);
        told.unwrap_or(self.properties().emission)
    }

    fn equivalence_properties(&self) -> &EquivalenceProperties {
        self.properties().equivalence_properties()
    }
}

pub fn replace_children_if_necessary(
    plan: Arc<dyn ExecutionPlan>,
    children: Vec<Arc<dyn ExecutionPlan>>,
) -> Result<Arc<dyn ExecutionPlan>> {
    plan.replace_children(children, ReplaceChildrenOptions)
}

/// A plan with what is tracked of it, and its children.
#[derive(Clone, Debug)]
pub struct PlanContext<T> {
    pub plan: Arc<dyn ExecutionPlan>,
    pub data: T,
    pub children: Vec<PlanContext<T>>,
}

impl<T> PlanContext<T> {
    pub fn new(plan: Arc<dyn ExecutionPlan>, data: T, children: Vec<Self>) -> Self {
        PlanContext {
            plan,
            data,
            children,
        }
    }

    pub fn update_plan_from_children(mut self) -> Result<Self> {
        let plans = self.children.iter().map(|child| child.plan.clone());
        self.plan = replace_children_if_necessary(self.plan.clone(), plans.collect())?;
        Ok(self)
    }
}
