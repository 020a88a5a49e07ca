//! The part of the tree for verification: specs, their expressions, and models of types.

use super::{Ident, Pos};

/// A spec expression. Each position is that of the expression's first token, but for a `Pair` it is
/// that of the token after its `(`.
#[derive(Clone, Debug, PartialEq, Eq)]
pub enum SpecExpr {
    /// An integer.
    ConstInt {
        /// The value.
        val: i128,
        /// Its position.
        pos: Pos,
    },
    /// A bit vector, `#b..` or `#x..`.
    ConstBitVec {
        /// The value.
        val: u128,
        /// The number of bits.
        width: usize,
        /// Its position.
        pos: Pos,
    },
    /// `true` or `false`.
    ConstBool {
        /// The value.
        val: bool,
        /// Its position.
        pos: Pos,
    },
    /// A variable.
    Var {
        /// The variable.
        var: Ident,
        /// Its position.
        pos: Pos,
    },
    /// A value of a model of types, `(as x T)`.
    As {
        /// The value.
        x: Box<SpecExpr>,
        /// The model.
        ty: ModelType,
        /// Its position.
        pos: Pos,
    },
    /// A field of a struct, `(:field x)`.
    Field {
        /// The name of the field, without its `:`.
        field: Ident,
        /// The struct.
        x: Box<SpecExpr>,
        /// Its position.
        pos: Pos,
    },
    /// Whether a value is of a variant, `(variant? x)`.
    Discriminator {
        /// The name of the variant, without its `?`.
        variant: Ident,
        /// The value.
        x: Box<SpecExpr>,
        /// Its position.
        pos: Pos,
    },
    /// An operator and its arguments.
    Op {
        /// The operator.
        op: SpecOp,
        /// The arguments.
        args: Vec<SpecExpr>,
        /// Its position.
        pos: Pos,
    },
    /// A value by its variant, `(match x ((variant field ..) body) ..)`.
    Match {
        /// The value.
        x: Box<SpecExpr>,
        /// The arms, in order.
        arms: Vec<Arm>,
        /// Its position.
        pos: Pos,
    },
    /// An expression in which names are defined, `(let ((x value) ..) body)`.
    Let {
        /// The names and their values, in order.
        defs: Vec<(Ident, SpecExpr)>,
        /// The expression.
        body: Box<SpecExpr>,
        /// Its position.
        pos: Pos,
    },
    /// An expression in which names are declared, `(with (x ..) body)`.
    With {
        /// The names, in order.
        decls: Vec<Ident>,
        /// The expression.
        body: Box<SpecExpr>,
        /// Its position.
        pos: Pos,
    },
    /// A macro without a name, `(macro (x ..) body)`.
    Macro {
        /// The parameters, in order.
        params: Vec<Ident>,
        /// The body.
        body: Box<SpecExpr>,
        /// Its position.
        pos: Pos,
    },
    /// A macro that is expanded, `(name! arg ..)`.
    Expand {
        /// The name of the macro, without its `!`.
        name: Ident,
        /// The arguments.
        args: Vec<SpecExpr>,
        /// Its position.
        pos: Pos,
    },
    /// A case of a `switch`, `(value result)`.
    Pair {
        /// The value.
        l: Box<SpecExpr>,
        /// The result.
        r: Box<SpecExpr>,
        /// Its position.
        pos: Pos,
    },
    /// A variant of an enum, `(name.variant arg ..)`.
    Enum {
        /// The name of the enum. Its position is that of the `(`.
        name: Ident,
        /// The name of the variant. Its position is that of the `(`.
        variant: Ident,
        /// The values of its fields.
        args: Vec<SpecExpr>,
        /// Its position.
        pos: Pos,
    },
    /// A struct, `(struct (field value) ..)`.
    Struct {
        /// The fields, in order.
        fields: Vec<FieldInit>,
        /// Its position.
        pos: Pos,
    },
}

/// An operator of spec expressions. The names are symbols of a tree; nothing is computed with them.
#[derive(Clone, Copy, Debug, PartialEq, Eq)]
pub enum SpecOp {
    /// `=`
    Eq,
    /// `and`
    And,
    /// `or`
    Or,
    /// `not`
    Not,
    /// `=>`
    Imp,
    /// `+`
    Add,
    /// `-`
    Sub,
    /// `*`
    Mul,
    /// `<`
    Lt,
    /// `<=`
    Lte,
    /// `>`
    Gt,
    /// `>=`
    Gte,
    /// `bvnot`
    BVNot,
    /// `bvand`
    BVAnd,
    /// `bvor`
    BVOr,
    /// `bvxor`
    BVXor,
    /// `bvneg`
    BVNeg,
    /// `bvadd`
    BVAdd,
    /// `bvsub`
    BVSub,
    /// `bvmul`
    BVMul,
    /// `bvudiv`
    BVUdiv,
    /// `bvurem`
    BVUrem,
    /// `bvsdiv`
    BVSdiv,
    /// `bvsrem`
    BVSrem,
    /// `bvshl`
    BVShl,
    /// `bvlshr`
    BVLshr,
    /// `bvashr`
    BVAshr,
    /// `bvule`
    BVUle,
    /// `bvult`
    BVUlt,
    /// `bvugt`
    BVUgt,
    /// `bvuge`
    BVUge,
    /// `bvslt`
    BVSlt,
    /// `bvsle`
    BVSle,
    /// `bvsgt`
    BVSgt,
    /// `bvsge`
    BVSge,
    /// `bvsaddo`
    BVSaddo,
    /// `rotr`
    Rotr,
    /// `rotl`
    Rotl,
    /// `extract`
    Extract,
    /// `zero_ext`
    ZeroExt,
    /// `sign_ext`
    SignExt,
    /// `concat`
    Concat,
    /// `replicate`
    Replicate,
    /// `fp.eq`
    FPEq,
    /// `fp.ne`
    FPNe,
    /// `fp.lt`
    FPLt,
    /// `fp.gt`
    FPGt,
    /// `fp.le`
    FPLe,
    /// `fp.ge`
    FPGe,
    /// `fp.+oo`
    FPPositiveInfinity,
    /// `fp.-oo`
    FPNegativeInfinity,
    /// `fp.+zero`
    FPPositiveZero,
    /// `fp.-zero`
    FPNegativeZero,
    /// `fp.NaN`
    FPNaN,
    /// `fp.add`
    FPAdd,
    /// `fp.sub`
    FPSub,
    /// `fp.mul`
    FPMul,
    /// `fp.div`
    FPDiv,
    /// `fp.min`
    FPMin,
    /// `fp.max`
    FPMax,
    /// `fp.neg`
    FPNeg,
    /// `fp.ceil`
    FPCeil,
    /// `fp.floor`
    FPFloor,
    /// `fp.sqrt`
    FPSqrt,
    /// `fp.trunc`
    FPTrunc,
    /// `fp.nearest`
    FPNearest,
    /// `fp.isZero`
    FPIsZero,
    /// `fp.isInfinite`
    FPIsInfinite,
    /// `fp.isNaN`
    FPIsNaN,
    /// `fp.isNegative`
    FPIsNegative,
    /// `fp.isPositive`
    FPIsPositive,
    /// `popcnt`
    Popcnt,
    /// `clz`
    Clz,
    /// `cls`
    Cls,
    /// `rev`
    Rev,
    /// `conv_to`
    ConvTo,
    /// `int2bv`
    Int2BV,
    /// `bv2nat`
    BV2Nat,
    /// `to_fp`
    ToFP,
    /// `to_fp_unsigned`
    ToFPUnsigned,
    /// `to_fp_from_fp`
    ToFPFromFP,
    /// `fp.to_ubv`
    FPToUBV,
    /// `fp.to_sbv`
    FPToSBV,
    /// `widthof`
    WidthOf,
    /// `if`
    If,
    /// `switch`
    Switch,
}

/// An arm of a `match`, `((variant field ..) body)`.
#[derive(Clone, Debug, PartialEq, Eq)]
pub struct Arm {
    /// The name of the variant.
    pub variant: Ident,
    /// Names for its fields.
    pub args: Vec<Ident>,
    /// The value of the arm.
    pub body: SpecExpr,
    /// The position of the token after its `(`.
    pub pos: Pos,
}

/// A field of a struct and its value, `(name value)`.
#[derive(Clone, Debug, PartialEq, Eq)]
pub struct FieldInit {
    /// The name of the field.
    pub name: Ident,
    /// Its value.
    pub value: Box<SpecExpr>,
    /// The position of the token after its `(`.
    pub pos: Pos,
}

/// A macro of spec expressions, `(macro (name x ..) body)`.
#[derive(Clone, Debug, PartialEq, Eq)]
pub struct SpecMacro {
    /// The name of the macro.
    pub name: Ident,
    /// The parameters, in order.
    pub params: Vec<Ident>,
    /// What it stands for.
    pub body: SpecExpr,
    /// The position of the token after the keyword.
    pub pos: Pos,
}

/// A state that a term changes, `(modifies state)` or `(modifies state cond)`.
#[derive(Clone, Debug, PartialEq, Eq)]
pub struct Modifies {
    /// The state.
    pub state: Ident,
    /// The name of the condition under which it is changed, if there is one.
    pub cond: Option<Ident>,
}

/// What holds of a term, `(spec (term x ..) ..)`.
#[derive(Clone, Debug, PartialEq, Eq)]
pub struct Spec {
    /// The term.
    pub term: Ident,
    /// Names for its arguments.
    pub args: Vec<Ident>,
    /// What it provides, of all `provide` clauses in order.
    pub provides: Vec<SpecExpr>,
    /// What it requires, of all `require` clauses in order.
    pub requires: Vec<SpecExpr>,
    /// Where it matches, of all `match` clauses in order.
    pub matches: Vec<SpecExpr>,
    /// What it changes, in order.
    pub modifies: Vec<Modifies>,
    /// The position of the token after the keyword.
    pub pos: Pos,
}

/// A state that specs speak of, `(state name (type T) (default value))`.
#[derive(Clone, Debug, PartialEq, Eq)]
pub struct State {
    /// The name of the state.
    pub name: Ident,
    /// The model of its values.
    pub ty: ModelType,
    /// Its value where nothing changes it.
    pub default: SpecExpr,
    /// The position of the token after the keyword.
    pub pos: Pos,
}

/// A model of a type, which verification speaks of.
#[derive(Clone, Debug, PartialEq, Eq)]
pub enum ModelType {
    /// Not specified, `!`.
    Unspecified,
    /// Inferred, `_`.
    Auto,
    /// Mathematical integers.
    Int,
    /// Booleans.
    Bool,
    /// The one value.
    Unit,
    /// Bit vectors, of a number of bits if it is known.
    BitVec(Option<usize>),
    /// Structs of these fields.
    Struct(Vec<ModelField>),
    /// A model under a name.
    Named(Ident),
}

/// A field of a struct model.
#[derive(Clone, Debug, PartialEq, Eq)]
pub struct ModelField {
    /// The name of the field.
    pub name: Ident,
    /// The model of its type.
    pub ty: ModelType,
}
