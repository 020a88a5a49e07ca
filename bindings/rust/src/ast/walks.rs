//! Parts of a node: its position, the term at its root, and all its terms.

use super::{Expr, Ident, Pattern, Pos, SpecExpr, Variant};

impl Variant {
    /// The full name of a variant: the enum's name, a dot and the variant's name, at the position
    /// of the variant's name.
    pub fn full_name(enum_name: &Ident, variant_name: &Ident) -> Ident {
        Ident(
            format!("{}.{}", enum_name.0, variant_name.0),
            variant_name.1,
        )
    }
}

impl Pattern {
    /// The symbol of a term, or `None` for another pattern.
    pub fn root_term(&self) -> Option<&Ident> {
        match self {
            Pattern::Term { sym, .. } => Some(sym),
            _ => None,
        }
    }

    /// Calls `f` with each term of the pattern and its position, in the order of the text.
    pub fn terms(&self, f: &mut dyn FnMut(Pos, &Ident)) {
        match self {
            Pattern::Term { sym, args, pos } => {
                f(*pos, sym);
                args.iter().for_each(|arg| arg.terms(f));
            }
            Pattern::And { subpats, .. } => subpats.iter().for_each(|subpat| subpat.terms(f)),
            Pattern::BindPattern { subpat, .. } => subpat.terms(f),
            Pattern::Var { .. }
            | Pattern::ConstBool { .. }
            | Pattern::ConstInt { .. }
            | Pattern::ConstPrim { .. }
            | Pattern::Wildcard { .. }
            | Pattern::MacroArg { .. } => {}
        }
    }

    /// The position of the pattern.
    pub fn pos(&self) -> Pos {
        match self {
            Pattern::Var { pos, .. }
            | Pattern::BindPattern { pos, .. }
            | Pattern::ConstBool { pos, .. }
            | Pattern::ConstInt { pos, .. }
            | Pattern::ConstPrim { pos, .. }
            | Pattern::Term { pos, .. }
            | Pattern::Wildcard { pos }
            | Pattern::And { pos, .. }
            | Pattern::MacroArg { pos, .. } => *pos,
        }
    }
}

impl Expr {
    /// Calls `f` with each term of the expression and its position, in the order of the text.
    pub fn terms(&self, f: &mut dyn FnMut(Pos, &Ident)) {
        match self {
            Expr::Term { sym, args, pos } => {
                f(*pos, sym);
                args.iter().for_each(|arg| arg.terms(f));
            }
            Expr::Let { defs, body, .. } => {
                defs.iter().for_each(|def| def.val.terms(f));
                body.terms(f);
            }
            Expr::Var { .. }
            | Expr::ConstBool { .. }
            | Expr::ConstInt { .. }
            | Expr::ConstPrim { .. } => {}
        }
    }

    /// The position of the expression.
    pub fn pos(&self) -> Pos {
        match self {
            Expr::Term { pos, .. }
            | Expr::Var { pos, .. }
            | Expr::ConstBool { pos, .. }
            | Expr::ConstInt { pos, .. }
            | Expr::ConstPrim { pos, .. }
            | Expr::Let { pos, .. } => *pos,
        }
    }
}

impl SpecExpr {
    /// The position of the spec expression.
    pub fn pos(&self) -> Pos {
        match self {
            SpecExpr::ConstInt { pos, .. }
            | SpecExpr::ConstBitVec { pos, .. }
            | SpecExpr::ConstBool { pos, .. }
            | SpecExpr::Var { pos, .. }
            | SpecExpr::As { pos, .. }
            | SpecExpr::Field { pos, .. }
            | SpecExpr::Discriminator { pos, .. }
            | SpecExpr::Op { pos, .. }
            | SpecExpr::Match { pos, .. }
            | SpecExpr::Let { pos, .. }
            | SpecExpr::With { pos, .. }
            | SpecExpr::Macro { pos, .. }
            | SpecExpr::Expand { pos, .. }
            | SpecExpr::Pair { pos, .. }
            | SpecExpr::Enum { pos, .. }
            | SpecExpr::Struct { pos, .. } => *pos,
        }
    }
}
