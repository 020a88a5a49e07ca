//! The tree of a text, in the types of upstream's module of this name.
//!
//! Names, fields and variants are upstream's, so code that walks its tree walks this one.

mod rules;
mod specs;
mod templates;
mod walks;

pub use crate::lexer::Pos;

pub use rules::{Expr, Extractor, IfLet, LetDef, Pattern, Rule};
pub use specs::{
    Arm, FieldInit, ModelField, ModelType, Modifies, Spec, SpecExpr, SpecMacro, SpecOp, State,
};

/// An identifier: a variable, a term symbol, or a type, with its position.
///
/// Identifiers are ordered by the bytes of the text, then by file, then by offset.
#[derive(Clone, Debug, PartialEq, Eq, PartialOrd, Ord, Hash)]
pub struct Ident(pub String, pub Pos);

/// A definition, the toplevel form of an ISLE source.
#[derive(Clone, Debug, PartialEq, Eq)]
pub enum Def {
    /// A pragma. There are none yet, so there is no value of this variant.
    Pragma(Pragma),
    /// A type definition, `(type ..)`.
    Type(Type),
    /// A rewriting rule, `(rule ..)`.
    Rule(Rule),
    /// A pattern under a name, `(extractor ..)`.
    Extractor(Extractor),
    /// A term declaration, `(decl ..)`.
    Decl(Decl),
    /// Attributes of a term or a rule, `(attr ..)`.
    Attr(Attr),
    /// A specification of a term, `(spec ..)`.
    Spec(Spec),
    /// A macro of spec expressions, `(macro ..)`.
    SpecMacro(SpecMacro),
    /// A model of a type, `(model ..)`.
    Model(Model),
    /// A state that specs name, `(state ..)`.
    State(State),
    /// A form: signatures under a name, `(form ..)`.
    Form(Form),
    /// The signatures of a term, `(instantiate ..)`.
    Instantiation(Instantiation),
    /// A term or a constant that is defined outside, `(extern ..)`.
    Extern(Extern),
    /// An automatic conversion between types, `(convert ..)`.
    Converter(Converter),
}

/// A pragma. None is defined, so there are no values of the type.
#[derive(Clone, Debug, PartialEq, Eq)]
pub enum Pragma {}

/// A type definition.
#[derive(Clone, Debug, PartialEq, Eq)]
pub struct Type {
    /// The name of the type.
    pub name: Ident,
    /// Whether the type is defined outside.
    pub is_extern: bool,
    /// Whether the type has no debug text.
    pub is_nodebug: bool,
    /// The content of the type.
    pub ty: TypeValue,
    /// The position of the token after the keyword.
    pub pos: Pos,
}

/// The content of a type. The position is that of its first token.
#[derive(Clone, Debug, PartialEq, Eq)]
pub enum TypeValue {
    /// A primitive type, known by its name.
    Primitive(Ident, Pos),
    /// An enum type: a list of variants.
    Enum(Vec<Variant>, Pos),
    /// A struct type: fields.
    Struct(Fields, Pos),
}

/// A variant of an enum type.
#[derive(Clone, Debug, PartialEq, Eq)]
pub struct Variant {
    /// The name of the variant.
    pub name: Ident,
    /// Its fields.
    pub fields: Fields,
    /// The position of its first token.
    pub pos: Pos,
}

/// The fields of a variant or of a struct type.
#[derive(Clone, Debug, PartialEq, Eq)]
pub enum Fields {
    /// No fields.
    Unit,
    /// Fields that have names.
    Struct(StructFields),
    /// Fields that are known by their places.
    Tuple(TupleFields),
}

/// Fields that have names.
#[derive(Clone, Debug, PartialEq, Eq)]
pub struct StructFields {
    /// The fields, in order.
    pub fields: Vec<StructField>,
    /// The position of the first token of the first field.
    pub pos: Pos,
}

/// A field that has a name.
#[derive(Clone, Debug, PartialEq, Eq)]
pub struct StructField {
    /// The name of the field.
    pub name: Ident,
    /// Its type.
    pub ty: Ident,
    /// The position of its first token.
    pub pos: Pos,
}

/// Fields that are known by their places.
#[derive(Clone, Debug, PartialEq, Eq)]
pub struct TupleFields {
    /// The fields, in order.
    pub fields: Vec<TupleField>,
    /// The position of the first token of the first field.
    pub pos: Pos,
}

/// A field that is known by its place.
#[derive(Clone, Debug, PartialEq, Eq)]
pub struct TupleField {
    /// The place, counted from 0.
    pub index: usize,
    /// Its type.
    pub ty: Ident,
    /// The position of its first token.
    pub pos: Pos,
}

/// A declaration of a term, with its argument types and its return type.
#[derive(Clone, Debug, PartialEq, Eq)]
pub struct Decl {
    /// The term that is declared.
    pub term: Ident,
    /// The types of its arguments.
    pub arg_tys: Vec<Ident>,
    /// The type of its result.
    pub ret_ty: Ident,
    /// Whether the term is pure.
    pub pure: bool,
    /// Whether the term is a multi-term.
    pub multi: bool,
    /// Whether the term may fail.
    pub partial: bool,
    /// Whether the term may be recursive.
    pub rec: bool,
    /// The position of the token after the keyword.
    pub pos: Pos,
}

/// The signatures of a term: its own, or those of a form.
#[derive(Clone, Debug, PartialEq, Eq)]
pub struct Instantiation {
    /// The term.
    pub term: Ident,
    /// The form whose signatures the term has, if it has no signatures of its own.
    pub form: Option<Ident>,
    /// The term's own signatures.
    pub signatures: Vec<Signature>,
    /// The tags under which the form's signatures hold.
    pub tags: Vec<Ident>,
    /// The position of the token after the keyword.
    pub pos: Pos,
}

/// Attributes of a term or a rule.
#[derive(Clone, Debug, PartialEq, Eq)]
pub struct Attr {
    /// The term or the rule.
    pub target: AttrTarget,
    /// The attributes.
    pub kinds: Vec<AttrKind>,
    /// The position of the token after the keyword.
    pub pos: Pos,
}

/// The target of an attribute.
#[derive(Clone, Debug, PartialEq, Eq)]
pub enum AttrTarget {
    /// A term.
    Term(Ident),
    /// A rule.
    Rule(Ident),
}

/// An attribute.
#[derive(Clone, Debug, PartialEq, Eq)]
pub enum AttrKind {
    /// Verification chains the term, `(veri chain)`.
    Chain,
    /// Verification keeps to the rule's priority, `(veri priority)`.
    Priority,
    /// A tag, `(tag ..)`.
    Tag(Ident),
}

/// The value of a model.
#[derive(Clone, Debug, PartialEq, Eq)]
pub enum ModelValue {
    /// A model of the type, `(type ..)`.
    TypeValue(ModelType),
    /// A constant, `(const ..)`.
    ConstValue(SpecExpr),
}

/// The model of a type.
#[derive(Clone, Debug, PartialEq, Eq)]
pub struct Model {
    /// The name of the type.
    pub name: Ident,
    /// Its model.
    pub val: ModelValue,
}

/// The models of a term's arguments and of its result.
#[derive(Clone, Debug, PartialEq, Eq)]
pub struct Signature {
    /// The models of the arguments.
    pub args: Vec<ModelType>,
    /// The model of the result.
    pub ret: ModelType,
    /// The position of the token after its `(`.
    pub pos: Pos,
}

/// A form: signatures under a name.
#[derive(Clone, Debug, PartialEq, Eq)]
pub struct Form {
    /// The name of the form.
    pub name: Ident,
    /// Its signatures.
    pub signatures: Vec<Signature>,
    /// The position of the token after the keyword.
    pub pos: Pos,
}

/// A term or a constant that is defined outside.
#[derive(Clone, Debug, PartialEq, Eq)]
pub enum Extern {
    /// An outside extractor: `(extern extractor Term func)`.
    Extractor {
        /// The term that it extracts.
        term: Ident,
        /// The outside function.
        func: Ident,
        /// The position of the token after the keyword.
        pos: Pos,
        /// Whether it always matches, `infallible`.
        infallible: bool,
    },
    /// An outside constructor: `(extern constructor Term func)`.
    Constructor {
        /// The term that it constructs.
        term: Ident,
        /// The outside function.
        func: Ident,
        /// The position of the token after the keyword.
        pos: Pos,
    },
    /// An outside constant: `(extern const $NAME type)`.
    Const {
        /// The name, without its `$`.
        name: Ident,
        /// The type.
        ty: Ident,
        /// The position of the constant.
        pos: Pos,
    },
}

/// An automatic conversion: a term that turns values of one type into values of another.
#[derive(Clone, Debug, PartialEq, Eq)]
pub struct Converter {
    /// The term that converts.
    pub term: Ident,
    /// The type of the expression that is converted.
    pub inner_ty: Ident,
    /// The type that is expected in the place of the expression.
    pub outer_ty: Ident,
    /// The position of the token after the keyword.
    pub pos: Pos,
}
