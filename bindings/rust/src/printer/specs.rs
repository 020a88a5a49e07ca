//! Specs, models and what they consist of.

use super::rules::integer;
use super::{Items, SExpr, ToSExpr, atom, list};
use crate::ast::{
    Arm, FieldInit, Ident, Model, ModelField, ModelType, ModelValue, Modifies, Spec, SpecExpr,
    SpecMacro, State,
};

impl ToSExpr for Spec {
    fn to_sexpr(&self) -> SExpr {
        let head = Items::tagged("spec").and(applied(&self.term, &self.args));
        let clauses = [
            ("provide", &self.provides),
            ("require", &self.requires),
            ("match", &self.matches),
        ];
        let clauses = clauses.into_iter().filter(|(_, parts)| !parts.is_empty());
        let clauses = clauses.map(|(word, parts)| Items::tagged(word).nodes(parts).list());
        clauses.fold(head, Items::and).nodes(&self.modifies).list()
    }
}

/// A name and the names that it is applied to.
fn applied(name: &Ident, args: &[Ident]) -> SExpr {
    Items::tagged(&name.0).nodes(args).list()
}

impl ToSExpr for Modifies {
    fn to_sexpr(&self) -> SExpr {
        let head = Items::tagged("modifies").node(&self.state);
        head.nodes(&self.cond).list()
    }
}

impl ToSExpr for SpecMacro {
    fn to_sexpr(&self) -> SExpr {
        let head = Items::tagged("macro").and(applied(&self.name, &self.params));
        head.node(&self.body).list()
    }
}

impl ToSExpr for State {
    fn to_sexpr(&self) -> SExpr {
        let ty = Items::tagged("type").node(&self.ty).list();
        let default = Items::tagged("default").node(&self.default).list();
        let head = Items::tagged("state").node(&self.name);
        head.and(ty).and(default).list()
    }
}

impl ToSExpr for Model {
    fn to_sexpr(&self) -> SExpr {
        Items::tagged("model")
            .node(&self.name)
            .node(&self.val)
            .list()
    }
}

impl ToSExpr for ModelValue {
    fn to_sexpr(&self) -> SExpr {
        match self {
            ModelValue::TypeValue(ty) => Items::tagged("type").node(ty).list(),
            ModelValue::ConstValue(value) => Items::tagged("const").node(value).list(),
        }
    }
}

impl ToSExpr for ModelType {
    fn to_sexpr(&self) -> SExpr {
        match self {
            ModelType::Unspecified => atom("!"),
            ModelType::Auto => atom("_"),
            ModelType::Int => atom("Int"),
            ModelType::Bool => atom("Bool"),
            ModelType::Unit => atom("Unit"),
            ModelType::BitVec(width) => {
                let width = width.iter().map(atom);
                width.fold(Items::tagged("bv"), Items::and).list()
            }
            ModelType::Struct(fields) => Items::tagged("struct").nodes(fields).list(),
            ModelType::Named(name) => Items::tagged("named").node(name).list(),
        }
    }
}

impl ToSExpr for ModelField {
    fn to_sexpr(&self) -> SExpr {
        Items::tagged(&self.name.0).node(&self.ty).list()
    }
}

impl ToSExpr for SpecExpr {
    fn to_sexpr(&self) -> SExpr {
        match self {
            SpecExpr::ConstInt { val, .. } => integer(*val),
            SpecExpr::ConstBitVec { val, width, .. } => bit_vector(*val, *width),
            SpecExpr::ConstBool { val, .. } => atom(val),
            SpecExpr::Var { var, .. } => var.to_sexpr(),
            SpecExpr::As { x, ty, .. } => Items::tagged("as").node(&**x).node(ty).list(),
            SpecExpr::Field { field, x, .. } => {
                Items::tagged(&format!(":{}", field.0)).node(&**x).list()
            }
            SpecExpr::Discriminator { variant, x, .. } => {
                Items::tagged(&format!("{}?", variant.0)).node(&**x).list()
            }
            SpecExpr::Op { op, args, .. } => Items(vec![op.to_sexpr()]).nodes(args).list(),
            SpecExpr::Match { x, arms, .. } => Items::tagged("match").node(&**x).nodes(arms).list(),
            SpecExpr::Let { defs, body, .. } => {
                let defs = defs
                    .iter()
                    .map(|(name, x)| Items::tagged(&name.0).node(x).list());
                let defs = SExpr::List(defs.collect());
                Items::tagged("let").and(defs).node(&**body).list()
            }
            SpecExpr::With { decls, body, .. } => {
                Items::tagged("with").and(list(decls)).node(&**body).list()
            }
            SpecExpr::Macro { params, body, .. } => {
                let head = Items::tagged("macro").and(list(params));
                head.node(&**body).list()
            }
            SpecExpr::Expand { name, args, .. } => {
                Items::tagged(&format!("{}!", name.0)).nodes(args).list()
            }
            SpecExpr::Pair { l, r, .. } => list([&**l, &**r]),
            SpecExpr::Enum {
                name,
                variant,
                args,
                ..
            } => {
                let head = format!("{}.{}", name.0, variant.0);
                Items::tagged(&head).nodes(args).list()
            }
            SpecExpr::Struct { fields, .. } => Items::tagged("struct").nodes(fields).list(),
        }
    }
}

/// A bit vector, in hexadecimal digits if they are whole. It has no more than 128 bits that are set.
fn bit_vector(value: u128, width: usize) -> SExpr {
    let (mark, digits, wanted) = if width % 4 == 0 {
        ("#x", format!("{value:x}"), width / 4)
    } else {
        ("#b", format!("{value:b}"), width)
    };
    let zeros = "0".repeat(wanted.saturating_sub(digits.len()));
    atom(format!("{mark}{zeros}{digits}"))
}

impl ToSExpr for Arm {
    fn to_sexpr(&self) -> SExpr {
        let head = applied(&self.variant, &self.args);
        SExpr::List(vec![head, self.body.to_sexpr()])
    }
}

impl ToSExpr for FieldInit {
    fn to_sexpr(&self) -> SExpr {
        Items::tagged(&self.name.0).node(&*self.value).list()
    }
}
