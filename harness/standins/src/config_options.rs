//! The settings of the D line.

use std::num::NonZeroUsize;

#[derive(Default)]
pub struct ConfigOptions {
    pub execution: Execution,
    pub optimizer: Optimizer,
}

pub struct Execution {
    pub target_partitions: usize,
    pub batch_size: NonZeroUsize,
    pub use_row_number_estimates_to_optimize_partitioning: bool,
}

#[derive(Default)]
pub struct Optimizer {
    pub enable_round_robin_repartition: bool,
    pub repartition_file_scans: bool,
    pub subset_repartition_threshold: usize,
    pub preserve_file_partitions: usize,
    pub prefer_existing_sort: bool,
    pub prefer_existing_union: bool,
}

impl Default for Execution {
    fn default() -> Self {
        Execution {
            target_partitions: 1,
            batch_size: NonZeroUsize::MIN,
            use_row_number_estimates_to_optimize_partitioning: false,
        }
    }
}
