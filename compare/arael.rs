//! A stand-in for the source's lib.rs with only what cse.rs and fmt.rs use.
//! Expressions, their equality and `From<Expr>` are as in the source; what only other parts of the
//! source reach (evaluating, expanding functions) is not here. `E::new`, which the source calls for
//! every node that it rebuilds, also watches the constants that come by.
use std::cell::Cell;
use std::collections::{BTreeSet, HashMap, HashSet};
use std::hash::{Hash, Hasher};
use std::rc::Rc;

#[derive(Clone, PartialEq)]
pub struct E(pub(crate) Rc<Expr>);

impl Eq for E {}

#[derive(Debug, Clone, PartialEq)]
pub enum Expr {
    Sym(String),
    Const(f64),
    Neg(E),
    Add(E, E),
    Sub(E, E),
    Mul(E, E),
    Div(E, E),
    Pow(E, E),
    Sin(E),
    Cos(E),
    Tan(E),
    Asin(E),
    Acos(E),
    Atan(E),
    Atan2(E, E),
    Sinh(E),
    Cosh(E),
    Tanh(E),
    Exp(E),
    Ln(E),
    Log2(E),
    Log10(E),
    Sqrt(E),
    Abs(E),
    Heaviside(E),
    Clamp(E, E, E),
    Branch(E, E, E),
    Select {
        index: E,
        arms: Vec<E>,
        default: Option<E>,
    },
    NamedConst {
        name: String,
        value: f64,
        rust_f32: String,
        rust_f64: String,
        latex: String,
    },
    Func {
        name: String,
        params: Vec<String>,
        kind: FuncKind,
        args: Vec<E>,
    },
}

impl Eq for Expr {}

#[derive(Debug, Clone, PartialEq)]
pub enum FuncKind {
    Symbolic {
        body: E,
    },
    Extern {
        call_path: String,
    },
    ExternNumericDerivs {
        call_path: String,
        partials_read: bool,
    },
    ExternOutput {
        index: usize,
    },
    NoDerivative {
        of: String,
        why: String,
    },
}

impl FuncKind {
    pub fn body(&self) -> Option<&E> {
        match self {
            FuncKind::Symbolic { body } => Some(body),
            _ => None,
        }
    }
}

/// What a comparison throws that counts what a scope is given, holds and states, where it is too much: refusal 23.
pub struct LargeScope;

/// What `E::new` throws when a rebuilt coefficient is none of the constants: refusal 10.
pub struct OutsideConstants;

thread_local! {
    static ONES: Cell<usize> = const { Cell::new(0) };
}

/// How often a constant 1 was made since this was last asked. The source makes one for each
/// reciprocal and nowhere else: a product with coefficient 1 is rebuilt without it.
pub fn take_ones() -> usize {
    ONES.with(|n| n.replace(0))
}

fn watch(c: f64) {
    let minus_zero = c == 0.0 && c.is_sign_negative();
    // written so that NaN fails the comparison too
    if minus_zero || !(c.abs() < 1e15) {
        std::panic::panic_any(OutsideConstants);
    }
    if c == 1.0 {
        ONES.with(|n| n.set(n.get() + 1));
    }
}

impl E {
    pub(crate) fn new(expr: Expr) -> E {
        if let Expr::Const(c) = expr {
            watch(c);
        }
        E(Rc::new(expr))
    }

    pub fn free_vars(&self) -> BTreeSet<String> {
        let mut set = BTreeSet::new();
        if let Expr::Sym(s) = self.as_ref() {
            set.insert(s.clone());
        }
        for c in crate::cse::children(self) {
            set.extend(c.free_vars());
        }
        set
    }

    pub fn symbols(&self) -> HashSet<String> {
        self.free_vars().into_iter().collect()
    }

    pub fn eval(&self, _vars: &HashMap<String, f64>) -> Result<f64, String> {
        Err("the stand-in does not evaluate".to_string())
    }
}

/// Trees to start from are made here, unwatched and never simplified.
impl From<Expr> for E {
    fn from(expr: Expr) -> E {
        E(Rc::new(expr))
    }
}

impl std::ops::Deref for E {
    type Target = Expr;
    fn deref(&self) -> &Expr {
        &self.0
    }
}

impl AsRef<Expr> for E {
    fn as_ref(&self) -> &Expr {
        &self.0
    }
}

/// Coarse, and enough: only `replace_many` hashes expressions, and it is not compared.
impl Hash for E {
    fn hash<H: Hasher>(&self, state: &mut H) {
        std::mem::discriminant(self.as_ref()).hash(state);
    }
}

pub fn symbol(name: &str) -> E {
    E::new(Expr::Sym(name.to_string()))
}

pub(crate) fn as_exact_int(v: f64) -> Option<i64> {
    (v == v.floor() && v.abs() < 1e15).then_some(v as i64)
}

pub(crate) fn expand_func(_params: &[String], _body: &E, _args: &[E]) -> E {
    unreachable!("no list here holds a Func")
}
