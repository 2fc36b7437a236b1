//! A stand-in for the crate varisat, which was not supplied: variables, literals and formulas as far as sat.rs names them, written from
//! what sat.rs asks of them. Its `Solver` searches for nothing: it hands out models that a test has given it, and notes what it was told.

use std::{fmt, iter::Map, ops::Range};

/// A variable, counted from 0.
#[derive(Clone, Copy, Debug, PartialEq, Eq, Hash, PartialOrd, Ord)]
pub struct Var(u32);

impl Var {
    pub fn from_index(index: usize) -> Self {
        Self(u32::try_from(index).expect("too many variables"))
    }

    pub fn index(self) -> usize {
        self.0 as usize
    }

    pub fn positive(self) -> Lit {
        Lit(self.0 << 1)
    }

    pub fn negative(self) -> Lit {
        Lit(self.0 << 1 | 1)
    }
}

/// A variable or its negation, in one word.
#[derive(Clone, Copy, PartialEq, Eq, Hash)]
pub struct Lit(u32);

impl Lit {
    pub fn var(self) -> Var {
        Var(self.0 >> 1)
    }

    pub fn is_positive(self) -> bool {
        self.0 & 1 == 0
    }
}

impl fmt::Debug for Lit {
    fn fmt(&self, f: &mut fmt::Formatter<'_>) -> fmt::Result {
        write!(f, "{}{}", if self.is_positive() { "" } else { "-" }, self.var().0)
    }
}

/// Clauses, one behind the other.
#[derive(Clone, Debug, Default)]
pub struct CnfFormula {
    variables: usize,
    literals: Vec<Lit>,
    ends: Vec<usize>,
}

impl CnfFormula {
    pub fn new() -> Self {
        Self::default()
    }

    pub fn var_count(&self) -> usize {
        self.variables
    }

    pub fn len(&self) -> usize {
        self.ends.len()
    }

    pub fn is_empty(&self) -> bool {
        self.ends.is_empty()
    }

    pub fn iter(&self) -> impl Iterator<Item = &[Lit]> + '_ {
        let mut begin = 0;
        self.ends.iter().map(move |&end| &self.literals[std::mem::replace(&mut begin, end)..end])
    }
}

/// What formulas and solvers have in common.
pub trait ExtendFormula {
    fn add_clause(&mut self, clause: &[Lit]);
    fn add_formula(&mut self, formula: &CnfFormula);
    fn new_var_iter(&mut self, count: usize) -> Map<Range<usize>, fn(usize) -> Var>;

    fn new_var(&mut self) -> Var {
        self.new_var_iter(1).next().expect("one variable")
    }
}

impl ExtendFormula for CnfFormula {
    fn add_clause(&mut self, clause: &[Lit]) {
        self.literals.extend_from_slice(clause);
        self.ends.push(self.literals.len());
        let needed = clause.iter().map(|literal| literal.var().index() + 1).max();
        self.variables = self.variables.max(needed.unwrap_or(0));
    }

    fn add_formula(&mut self, formula: &CnfFormula) {
        formula.iter().for_each(|clause| self.add_clause(clause));
    }

    fn new_var_iter(&mut self, count: usize) -> Map<Range<usize>, fn(usize) -> Var> {
        let first = self.variables;
        self.variables += count;
        (first..self.variables).map(Var::from_index)
    }
}

pub mod solver {
    use super::{CnfFormula, ExtendFormula, Lit, Map, Range, Var};
    use std::{cell::RefCell, mem::take};

    /// What a test gives the solver, and what the solver was told.
    #[derive(Debug, Default)]
    pub struct Script {
        /// The models to hand out, the next one last; each has a truth value for every variable.
        pub models: Vec<Vec<bool>>,
        /// All clauses, in the order in which they came.
        pub told: CnfFormula,
    }

    thread_local! {
        static SCRIPT: RefCell<Script> = RefCell::default();
    }

    /// Forgets what was told before, and hands out these models from now on.
    pub fn begin(mut models: Vec<Vec<bool>>) {
        models.reverse();
        SCRIPT.with(|script| *script.borrow_mut() = Script { models, ..Script::default() });
    }

    /// What the solver was told since `begin`.
    pub fn told() -> CnfFormula {
        SCRIPT.with(|script| take(&mut script.borrow_mut().told))
    }

    #[derive(Debug, Default)]
    pub struct Solver {
        model: Option<Vec<Lit>>,
    }

    impl Solver {
        pub fn new() -> Self {
            Self::default()
        }

        pub fn solve(&mut self) -> Result<bool, String> {
            let next = SCRIPT.with(|script| script.borrow_mut().models.pop());
            let literal = |(index, on)| if on { Var::from_index(index).positive() } else { Var::from_index(index).negative() };
            self.model = next.map(|values| values.into_iter().enumerate().map(literal).collect());
            Ok(self.model.is_some())
        }

        pub fn model(&self) -> Option<Vec<Lit>> {
            self.model.clone()
        }
    }

    impl ExtendFormula for Solver {
        fn add_clause(&mut self, clause: &[Lit]) {
            SCRIPT.with(|script| script.borrow_mut().told.add_clause(clause));
        }

        fn add_formula(&mut self, formula: &CnfFormula) {
            formula.iter().for_each(|clause| self.add_clause(clause));
        }

        fn new_var_iter(&mut self, count: usize) -> Map<Range<usize>, fn(usize) -> Var> {
            SCRIPT.with(|script| script.borrow_mut().told.new_var_iter(count))
        }
    }
}
