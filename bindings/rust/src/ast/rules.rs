//! The part of the tree that rewrites: patterns, expressions, conditions, rules and extractors.

use super::{Ident, Pos};

/// A rule: a value that matches the pattern is rewritten to the expression, if the conditions hold.
#[derive(Clone, Debug, PartialEq, Eq)]
pub struct Rule {
    /// The left side.
    pub pattern: Pattern,
    /// The conditions, in order.
    pub iflets: Vec<IfLet>,
    /// The right side.
    pub expr: Expr,
    /// The position of the token after the keyword.
    pub pos: Pos,
    /// The priority, if the rule has one.
    pub prio: Option<i64>,
    /// The name, if the rule has one.
    pub name: Option<Ident>,
}

/// A condition of a rule, `(if-let ..)`. `(if ..)` is one whose pattern is a wildcard.
#[derive(Clone, Debug, PartialEq, Eq)]
pub struct IfLet {
    /// The pattern that the value of the expression must match.
    pub pattern: Pattern,
    /// The expression.
    pub expr: Expr,
    /// The position of the token after the keyword.
    pub pos: Pos,
}

/// An extractor that stands for a pattern: `(extractor (A x y) (B x _ y))`.
#[derive(Clone, Debug, PartialEq, Eq)]
pub struct Extractor {
    /// The term.
    pub term: Ident,
    /// Its parameters.
    pub args: Vec<Ident>,
    /// The pattern that it stands for.
    pub template: Pattern,
    /// The position of the token after the keyword.
    pub pos: Pos,
}

/// A pattern of a rule, a condition or an extractor. Each position is that of the pattern's first
/// token.
#[derive(Clone, Debug, PartialEq, Eq)]
pub enum Pattern {
    /// A variable: the first one of its name is bound, a later one must have the same value.
    Var {
        /// The variable.
        var: Ident,
        /// Its position.
        pos: Pos,
    },
    /// A variable that is bound to the value that a pattern matches, `x @ ..`.
    BindPattern {
        /// The variable.
        var: Ident,
        /// The pattern.
        subpat: Box<Pattern>,
        /// Its position.
        pos: Pos,
    },
    /// `true` or `false`.
    ConstBool {
        /// The value.
        val: bool,
        /// Its position.
        pos: Pos,
    },
    /// An integer.
    ConstInt {
        /// The value.
        val: i128,
        /// Its position.
        pos: Pos,
    },
    /// A constant that is defined outside, `$NAME`.
    ConstPrim {
        /// The name, without its `$`.
        val: Ident,
        /// Its position.
        pos: Pos,
    },
    /// A term or a variant of a type, and patterns for its arguments.
    Term {
        /// The term.
        sym: Ident,
        /// The patterns.
        args: Vec<Pattern>,
        /// Its position.
        pos: Pos,
    },
    /// Anything, `_`.
    Wildcard {
        /// Its position.
        pos: Pos,
    },
    /// Patterns that must all match, `(and ..)`.
    And {
        /// The patterns.
        subpats: Vec<Pattern>,
        /// Its position.
        pos: Pos,
    },
    /// An argument of a macro, in a template. No text parses as it.
    MacroArg {
        /// The place of the argument, counted from 0.
        index: usize,
        /// The position of the variable that it replaces.
        pos: Pos,
    },
}

/// An expression of a rule or a condition. Each position is that of the expression's first token.
#[derive(Clone, Debug, PartialEq, Eq)]
pub enum Expr {
    /// A term and its arguments.
    Term {
        /// The term.
        sym: Ident,
        /// The arguments.
        args: Vec<Expr>,
        /// Its position.
        pos: Pos,
    },
    /// A variable.
    Var {
        /// The name.
        name: Ident,
        /// Its position.
        pos: Pos,
    },
    /// `true` or `false`.
    ConstBool {
        /// The value.
        val: bool,
        /// Its position.
        pos: Pos,
    },
    /// An integer.
    ConstInt {
        /// The value.
        val: i128,
        /// Its position.
        pos: Pos,
    },
    /// A constant that is defined outside, `$NAME`.
    ConstPrim {
        /// The name, without its `$`.
        val: Ident,
        /// Its position.
        pos: Pos,
    },
    /// An expression in which variables are defined, `(let ((x T ..) ..) ..)`.
    Let {
        /// The definitions, in order.
        defs: Vec<LetDef>,
        /// The expression.
        body: Box<Expr>,
        /// Its position.
        pos: Pos,
    },
}

/// A variable of a `let`, with its type and its value.
#[derive(Clone, Debug, PartialEq, Eq)]
pub struct LetDef {
    /// The name of the variable.
    pub var: Ident,
    /// Its type.
    pub ty: Ident,
    /// Its value.
    pub val: Box<Expr>,
    /// The position of the definition's first token.
    pub pos: Pos,
}
