//! Types, declarations and the other definitions that are no rules and no specs.

use super::{Items, SExpr, ToSExpr, atom, list};
use crate::ast::{
    Attr, AttrKind, AttrTarget, Converter, Decl, Def, Extern, Fields, Form, Ident, Instantiation,
    Signature, StructField, TupleField, Type, TypeValue, Variant,
};

impl ToSExpr for Ident {
    fn to_sexpr(&self) -> SExpr {
        atom(&self.0)
    }
}

impl ToSExpr for Def {
    fn to_sexpr(&self) -> SExpr {
        match self {
            Def::Pragma(it) => match *it {},
            Def::Type(it) => it.to_sexpr(),
            Def::Rule(it) => it.to_sexpr(),
            Def::Extractor(it) => it.to_sexpr(),
            Def::Decl(it) => it.to_sexpr(),
            Def::Attr(it) => it.to_sexpr(),
            Def::Spec(it) => it.to_sexpr(),
            Def::SpecMacro(it) => it.to_sexpr(),
            Def::Model(it) => it.to_sexpr(),
            Def::State(it) => it.to_sexpr(),
            Def::Form(it) => it.to_sexpr(),
            Def::Instantiation(it) => it.to_sexpr(),
            Def::Extern(it) => it.to_sexpr(),
            Def::Converter(it) => it.to_sexpr(),
        }
    }
}

impl ToSExpr for Type {
    fn to_sexpr(&self) -> SExpr {
        let head = Items::tagged("type").node(&self.name);
        let flags = head.flag(self.is_extern, "extern");
        let flags = flags.flag(self.is_nodebug, "nodebug");
        flags.node(&self.ty).list()
    }
}

impl ToSExpr for TypeValue {
    fn to_sexpr(&self) -> SExpr {
        match self {
            TypeValue::Primitive(name, _) => Items::tagged("primitive").node(name).list(),
            TypeValue::Enum(variants, _) => Items::tagged("enum").nodes(variants).list(),
            TypeValue::Struct(fields, _) => Items::tagged("struct").fields(fields).list(),
        }
    }
}

impl ToSExpr for Variant {
    fn to_sexpr(&self) -> SExpr {
        Items::tagged(&self.name.0).fields(&self.fields).list()
    }
}

impl Items {
    fn fields(self, fields: &Fields) -> Items {
        match fields {
            Fields::Unit => self,
            Fields::Struct(it) => self.nodes(&it.fields),
            Fields::Tuple(it) => self.nodes(&it.fields),
        }
    }
}

impl ToSExpr for StructField {
    fn to_sexpr(&self) -> SExpr {
        list([&self.name, &self.ty])
    }
}

impl ToSExpr for TupleField {
    fn to_sexpr(&self) -> SExpr {
        self.ty.to_sexpr()
    }
}

impl ToSExpr for Decl {
    fn to_sexpr(&self) -> SExpr {
        let flags = Items::tagged("decl").flag(self.pure, "pure");
        let flags = flags.flag(self.multi, "multi");
        let flags = flags.flag(self.partial, "partial");
        let head = flags.flag(self.rec, "rec").node(&self.term);
        head.and(list(&self.arg_tys)).node(&self.ret_ty).list()
    }
}

impl ToSExpr for Attr {
    fn to_sexpr(&self) -> SExpr {
        let head = match &self.target {
            AttrTarget::Term(name) => Items::tagged("attr").node(name),
            AttrTarget::Rule(name) => Items::tagged("attr").and(atom("rule")).node(name),
        };
        head.nodes(&self.kinds).list()
    }
}

impl ToSExpr for AttrKind {
    fn to_sexpr(&self) -> SExpr {
        match self {
            AttrKind::Chain => Items::tagged("veri").and(atom("chain")).list(),
            AttrKind::Priority => Items::tagged("veri").and(atom("priority")).list(),
            AttrKind::Tag(name) => tag(name),
        }
    }
}

fn tag(name: &Ident) -> SExpr {
    Items::tagged("tag").node(name).list()
}

impl ToSExpr for Signature {
    fn to_sexpr(&self) -> SExpr {
        let args = Items::tagged("args").nodes(&self.args).list();
        let ret = Items::tagged("ret").node(&self.ret).list();
        SExpr::List(vec![args, ret])
    }
}

impl ToSExpr for Form {
    fn to_sexpr(&self) -> SExpr {
        let head = Items::tagged("form").node(&self.name);
        head.nodes(&self.signatures).list()
    }
}

impl ToSExpr for Instantiation {
    fn to_sexpr(&self) -> SExpr {
        let head = Items::tagged("instantiate").node(&self.term);
        let head = head.nodes(&self.form).nodes(&self.signatures);
        let tags = self.tags.iter().map(tag);
        tags.fold(head, Items::and).list()
    }
}

impl ToSExpr for Extern {
    fn to_sexpr(&self) -> SExpr {
        let head = Items::tagged("extern");
        let (head, parts) = match self {
            Extern::Extractor {
                term,
                func,
                infallible,
                ..
            } => {
                let head = head.and(atom("extractor"));
                (head.flag(*infallible, "infallible"), [term, func])
            }
            Extern::Constructor { term, func, .. } => (head.and(atom("constructor")), [term, func]),
            Extern::Const { name, ty, .. } => {
                let head = head.and(atom("const")).and(constant(name));
                return head.node(ty).list();
            }
        };
        head.nodes(parts).list()
    }
}

/// A constant that is defined outside.
pub(super) fn constant(name: &Ident) -> SExpr {
    atom(format!("${}", name.0))
}

impl ToSExpr for Converter {
    fn to_sexpr(&self) -> SExpr {
        let parts = [&self.inner_ty, &self.outer_ty, &self.term];
        Items::tagged("convert").nodes(parts).list()
    }
}
