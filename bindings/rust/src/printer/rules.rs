//! Patterns, expressions, rules and extractors.

use super::definitions::constant;
use super::{Items, SExpr, ToSExpr, atom};
use crate::ast::{Expr, Extractor, IfLet, LetDef, Pattern, Rule};

impl ToSExpr for Rule {
    fn to_sexpr(&self) -> SExpr {
        let head = Items::tagged("rule").nodes(&self.name);
        let head = self.prio.iter().map(atom).fold(head, Items::and);
        let head = head.node(&self.pattern).nodes(&self.iflets);
        head.node(&self.expr).list()
    }
}

impl ToSExpr for IfLet {
    fn to_sexpr(&self) -> SExpr {
        let head = Items::tagged("if-let").node(&self.pattern);
        head.node(&self.expr).list()
    }
}

impl ToSExpr for Extractor {
    fn to_sexpr(&self) -> SExpr {
        let term = Items::tagged(&self.term.0).nodes(&self.args).list();
        Items::tagged("extractor")
            .and(term)
            .node(&self.template)
            .list()
    }
}

impl ToSExpr for Pattern {
    fn to_sexpr(&self) -> SExpr {
        match self {
            Pattern::Var { var, .. } => var.to_sexpr(),
            Pattern::BindPattern { var, subpat, .. } => {
                SExpr::Binding(var.0.clone(), Box::new(subpat.to_sexpr()))
            }
            Pattern::ConstBool { val, .. } => atom(val),
            Pattern::ConstInt { val, .. } => integer(*val),
            Pattern::ConstPrim { val, .. } => constant(val),
            Pattern::Term { sym, args, .. } => Items::tagged(&sym.0).nodes(args).list(),
            Pattern::Wildcard { .. } => atom("_"),
            Pattern::And { subpats, .. } => Items::tagged("and").nodes(subpats).list(),
            Pattern::MacroArg { .. } => panic!("nothing spells an argument of a macro"),
        }
    }
}

impl ToSExpr for Expr {
    fn to_sexpr(&self) -> SExpr {
        match self {
            Expr::Term { sym, args, .. } => Items::tagged(&sym.0).nodes(args).list(),
            Expr::Var { name, .. } => name.to_sexpr(),
            Expr::ConstBool { val, .. } => atom(val),
            Expr::ConstInt { val, .. } => integer(*val),
            Expr::ConstPrim { val, .. } => constant(val),
            Expr::Let { defs, body, .. } => {
                let defs = super::list(defs);
                Items::tagged("let").and(defs).node(&**body).list()
            }
        }
    }
}

impl ToSExpr for LetDef {
    fn to_sexpr(&self) -> SExpr {
        let head = Items::tagged(&self.var.0).node(&self.ty);
        head.node(&*self.val).list()
    }
}

/// An integer. No literal spells the least one but that of its bits.
pub(super) fn integer(value: i128) -> SExpr {
    match value {
        i128::MIN => atom(value.unsigned_abs()),
        value => atom(value),
    }
}
