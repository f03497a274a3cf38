//! Stand-ins for what the three files import from arrow, datafusion-common, datafusion-expr, datafusion-execution,
//! datafusion-physical-expr, datafusion-physical-expr-common, datafusion-physical-plan and itertools. The crate `oracle` gives this one
//! crate all of those names. Modules, types and functions have the names that the files use; each carries facts of a sheet and decides
//! nothing. What no sheet reaches is `unreachable!`.

// The files hold plans in `Arc`; here they stay in one thread.
#![allow(clippy::arc_with_non_send_sync)]

pub mod facts;

mod config_options;
mod distribution;
mod expr;
mod operators;
mod orderings;
mod plan;
mod properties;

use std::fmt;

#[derive(Debug)]
pub struct DataFusionError(pub String);

pub type Result<T, E = DataFusionError> = std::result::Result<T, E>;

#[macro_export]
macro_rules! internal_err {
    ($($text:tt)*) => {
        Err($crate::DataFusionError(format!($($text)*)))
    };
}

#[macro_export]
macro_rules! izip {
    ($a:expr, $b:expr, $c:expr) => {
        $a.into_iter().zip($b).zip($c).map(|((a, b), c)| (a, b, c))
    };
    ($a:expr, $b:expr, $c:expr, $d:expr, $e:expr) => {
        $a.into_iter()
            .zip($b)
            .zip($c)
            .zip($d)
            .zip($e)
            .map(|((((a, b), c), d), e)| (a, b, c, d, e))
    };
}

// arrow
pub mod compute {
    /// A direction of the sheet, 0 to 3.
    #[derive(Clone, Copy, Debug, PartialEq, Eq)]
    pub struct SortOptions {
        pub descending: bool,
        pub nulls_first: bool,
    }
}

// datafusion-common
pub mod config {
    pub use crate::config_options::ConfigOptions;
}

pub mod error {
    pub use crate::Result;
}

pub mod stats {
    #[derive(Clone, Copy, Debug)]
    pub enum Precision<T> {
        Exact(T),
        Inexact(T),
        Absent,
    }
}

#[derive(Debug)]
pub struct Statistics {
    pub num_rows: stats::Precision<usize>,
}

pub mod tree_node {
    pub use crate::plan::PlanContext;
    use crate::{ExecutionPlan, Result};
    use std::sync::Arc;

    pub struct Transformed<T> {
        pub data: T,
        pub transformed: bool,
    }

    impl<T> Transformed<T> {
        pub fn yes(data: T) -> Self {
            let transformed = true;
            Transformed { data, transformed }
        }

        pub fn no(data: T) -> Self {
            let transformed = false;
            Transformed { data, transformed }
        }
    }

    pub trait TransformedResult<T> {
        fn data(self) -> Result<T>;
    }

    impl<T> TransformedResult<T> for Result<Transformed<T>> {
        fn data(self) -> Result<T> {
            self.map(|transformed| transformed.data)
        }
    }

    pub enum TreeNodeRecursion {
        Continue,
    }

    /// Walks over whole plans are left out.
    pub trait TreeNode: Sized {
        fn transform_up(
            self,
            _: impl FnMut(Self) -> Result<Transformed<Self>>,
        ) -> Result<Transformed<Self>> {
            unreachable!()
        }
    }

    impl TreeNode for Arc<dyn ExecutionPlan> {}
}

// datafusion-expr
pub mod logical_plan {
    pub struct Aggregate;

    impl Aggregate {
        pub const INTERNAL_GROUPING_ID: &'static str = "__grouping_id";
    }

    #[derive(Clone, Copy, Debug, PartialEq, Eq)]
    pub enum JoinType {
        Inner,
        Left,
        Right,
        Full,
        LeftSemi,
        RightSemi,
        LeftAnti,
        RightAnti,
        LeftMark,
        RightMark,
    }
}

// datafusion-execution
#[derive(Debug)]
pub struct TaskContext;

// datafusion-physical-expr and datafusion-physical-expr-common
pub use distribution::{Distribution, Partitioning};
pub use expr::{PhysicalExpr, PhysicalExprRef, physical_exprs_equal};
pub use orderings::{LexOrdering, LexRequirement, OrderingRequirements};
pub use properties::{EquivalenceProperties, PlanProperties};

pub mod expressions {
    pub use crate::expr::{Column, NoOp, Other};
}

pub mod physical_expr {
    pub use crate::expr::PhysicalExpr;
}

pub mod sort_expr {
    pub use crate::orderings::OrderingRequirements;
}

pub mod utils {
    use crate::PhysicalExprRef;

    /// M of the sheet: the driver makes it the projection's own list.
    pub fn map_columns_before_projection(
        _required: &[PhysicalExprRef],
        projected: &[(PhysicalExprRef, String)],
    ) -> Vec<PhysicalExprRef> {
        projected.iter().map(|(expr, _)| expr.clone()).collect()
    }
}

// datafusion-physical-plan
pub use distribution::{ChildSatisfactionOptions, InputDistributionRequirements};
pub use plan::{
    ChildStats, ChildrenPropertiesMode, ExecutionPlan, ExecutionPlanProperties,
    ReplaceChildrenOptions,
};
pub use statistics::StatisticsArgs;

pub struct SendableRecordBatchStream;

pub enum DisplayFormatType {
    Default,
    Verbose,
    TreeRender,
}

pub trait DisplayAs {
    fn fmt_as(&self, t: DisplayFormatType, f: &mut fmt::Formatter) -> fmt::Result;
}

pub mod aggregates {
    pub use crate::operators::{AggregateExec, AggregateMode, PhysicalGroupBy};
}

pub mod coalesce_partitions {
    pub use crate::operators::CoalescePartitionsExec;
}

pub mod execution_plan {
    pub use crate::plan::replace_children_if_necessary;
    pub use crate::properties::{Boundedness, EmissionType};
}

pub mod joins {
    pub use crate::operators::{
        CrossJoinExec, HashJoinExec, NullEquality, PartitionMode, SortMergeJoinExec,
    };
}

pub mod limit {
    pub use crate::operators::{GlobalLimitExec, LocalLimitExec};
}

pub mod projection {
    pub use crate::operators::{ProjectionExec, ProjectionExpr};
    use crate::{ExecutionPlan, LexRequirement, PhysicalExprRef, Result};
    use std::sync::Arc;

    pub fn make_with_child(
        _: &ProjectionExec,
        _: &Arc<dyn ExecutionPlan>,
    ) -> Result<Arc<dyn ExecutionPlan>> {
        unreachable!()
    }

    pub fn update_expr(
        _: &PhysicalExprRef,
        _: &[ProjectionExpr],
        _: bool,
    ) -> Result<Option<PhysicalExprRef>> {
        unreachable!()
    }

    pub fn update_ordering_requirement(
        _: LexRequirement,
        _: &[ProjectionExpr],
    ) -> Result<Option<LexRequirement>> {
        unreachable!()
    }
}

pub mod repartition {
    pub use crate::operators::RepartitionExec;
}

pub mod scalar_subquery {
    pub use crate::operators::ScalarSubqueryExec;
}

pub mod sorts {
    pub mod sort {
        pub use crate::operators::SortExec;
    }

    pub mod sort_preserving_merge {
        pub use crate::operators::SortPreservingMergeExec;
    }
}

pub mod statistics {
    use crate::facts::Place;
    use crate::{ExecutionPlan, Result, Statistics};

    pub struct StatisticsArgs;

    impl StatisticsArgs {
        #[expect(clippy::new_without_default)]
        pub fn new() -> Self {
            StatisticsArgs
        }
    }

    pub struct StatisticsContext;

    impl StatisticsContext {
        #[expect(clippy::new_without_default)]
        pub fn new() -> Self {
            StatisticsContext
        }

        /// `rowkind` and `rows` of the child's F line.
        pub fn compute(&self, plan: &dyn ExecutionPlan, _: &StatisticsArgs) -> Result<Statistics> {
            let num_rows = Place::of(plan).child().rows;
            Ok(Statistics { num_rows })
        }
    }
}

pub mod union {
    pub use crate::operators::{InterleaveExec, UnionExec, can_interleave};
}

pub mod windows {
    pub use crate::operators::{BoundedWindowAggExec, WindowAggExec, get_best_fitting_window};
}

/// Operators of the sheet that none of the files names.
pub use operators::Operator;
pub use plan::{Node, Schema};
