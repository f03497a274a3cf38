//! Expressions: the three numbers of a sheet. A name is its number in decimal.

use std::any::Any;
use std::fmt::{self, Debug, Display};
use std::sync::Arc;

pub type PhysicalExprRef = Arc<dyn PhysicalExpr>;

pub trait PhysicalExpr: Any + Debug + Display {
    /// Kind, name and index.
    fn numbers(&self) -> (u64, &str, usize);
}

impl PartialEq for dyn PhysicalExpr {
    fn eq(&self, other: &Self) -> bool {
        self.numbers() == other.numbers()
    }
}

macro_rules! shown {
    ($($name:ident),*) => {
        $(impl Display for $name {
            fn fmt(&self, f: &mut fmt::Formatter<'_>) -> fmt::Result {
                Debug::fmt(self, f)
            }
        })*
    };
}

shown!(Column, Other, NoOp);

#[derive(Clone, Debug)]
pub struct Column {
    name: String,
    index: usize,
}

impl Column {
    pub fn new(name: &str, index: usize) -> Self {
        let name = name.to_owned();
        Column { name, index }
    }

    pub fn name(&self) -> &str {
        &self.name
    }

    pub fn index(&self) -> usize {
        self.index
    }
}

impl PhysicalExpr for Column {
    fn numbers(&self) -> (u64, &str, usize) {
        (0, &self.name, self.index)
    }
}

/// Another expression (kind 1).
#[derive(Debug)]
pub struct Other(pub String);

impl PhysicalExpr for Other {
    fn numbers(&self) -> (u64, &str, usize) {
        (1, &self.0, 0)
    }
}

/// The placeholder.
#[derive(Debug)]
pub struct NoOp;

impl NoOp {
    #[expect(clippy::new_without_default)]
    pub fn new() -> Self {
        NoOp
    }
}

impl PhysicalExpr for NoOp {
    fn numbers(&self) -> (u64, &str, usize) {
        (2, "0", 0)
    }
}

pub fn physical_exprs_equal(a: &[PhysicalExprRef], b: &[PhysicalExprRef]) -> bool {
    a == b
}
