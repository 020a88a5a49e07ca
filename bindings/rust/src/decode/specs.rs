//! Specs, their expressions, and models of types.

use super::{Broken, Read, Reader, boxed};
use crate::ast::{
    Arm, FieldInit, Ident, ModelField, ModelType, Modifies, Spec, SpecExpr, SpecMacro, SpecOp,
    State,
};

/// The operators in order: the byte of each is its place here.
#[rustfmt::skip]
const OPERATORS: [SpecOp; 86] = [
    SpecOp::Eq, SpecOp::And, SpecOp::Or, SpecOp::Not, SpecOp::Imp, SpecOp::Add, SpecOp::Sub,
    SpecOp::Mul, SpecOp::Lt, SpecOp::Lte, SpecOp::Gt, SpecOp::Gte, SpecOp::BVNot, SpecOp::BVAnd,
    SpecOp::BVOr, SpecOp::BVXor, SpecOp::BVNeg, SpecOp::BVAdd, SpecOp::BVSub, SpecOp::BVMul,
    SpecOp::BVUdiv, SpecOp::BVUrem, SpecOp::BVSdiv, SpecOp::BVSrem, SpecOp::BVShl,
    SpecOp::BVLshr, SpecOp::BVAshr, SpecOp::BVUle, SpecOp::BVUlt, SpecOp::BVUgt, SpecOp::BVUge,
    SpecOp::BVSlt, SpecOp::BVSle, SpecOp::BVSgt, SpecOp::BVSge, SpecOp::BVSaddo, SpecOp::Rotr,
    SpecOp::Rotl, SpecOp::Extract, SpecOp::ZeroExt, SpecOp::SignExt, SpecOp::Concat,
    SpecOp::Replicate, SpecOp::FPEq, SpecOp::FPNe, SpecOp::FPLt, SpecOp::FPGt, SpecOp::FPLe,
    SpecOp::FPGe, SpecOp::FPPositiveInfinity, SpecOp::FPNegativeInfinity,
    SpecOp::FPPositiveZero, SpecOp::FPNegativeZero, SpecOp::FPNaN, SpecOp::FPAdd, SpecOp::FPSub,
    SpecOp::FPMul, SpecOp::FPDiv, SpecOp::FPMin, SpecOp::FPMax, SpecOp::FPNeg, SpecOp::FPCeil,
    SpecOp::FPFloor, SpecOp::FPSqrt, SpecOp::FPTrunc, SpecOp::FPNearest, SpecOp::FPIsZero,
    SpecOp::FPIsInfinite, SpecOp::FPIsNaN, SpecOp::FPIsNegative, SpecOp::FPIsPositive,
    SpecOp::Popcnt, SpecOp::Clz, SpecOp::Cls, SpecOp::Rev, SpecOp::ConvTo, SpecOp::Int2BV,
    SpecOp::BV2Nat, SpecOp::ToFP, SpecOp::ToFPUnsigned, SpecOp::ToFPFromFP, SpecOp::FPToUBV,
    SpecOp::FPToSBV, SpecOp::WidthOf, SpecOp::If, SpecOp::Switch,
];

impl Reader<'_> {
    pub(super) fn spec(&mut self) -> Read<Spec> {
        Ok(Spec {
            term: self.name()?,
            args: self.names()?,
            provides: self.list(Reader::spec_expr)?,
            requires: self.list(Reader::spec_expr)?,
            matches: self.list(Reader::spec_expr)?,
            modifies: self.list(Reader::modifies)?,
            pos: self.pos()?,
        })
    }

    fn modifies(&mut self) -> Read<Modifies> {
        Ok(Modifies {
            state: self.name()?,
            cond: self.option(Reader::name)?,
        })
    }

    pub(super) fn spec_macro(&mut self) -> Read<SpecMacro> {
        Ok(SpecMacro {
            name: self.name()?,
            params: self.names()?,
            body: self.spec_expr()?,
            pos: self.pos()?,
        })
    }

    pub(super) fn state(&mut self) -> Read<State> {
        Ok(State {
            name: self.name()?,
            ty: self.model_type()?,
            default: self.spec_expr()?,
            pos: self.pos()?,
        })
    }

    pub(super) fn model_type(&mut self) -> Read<ModelType> {
        Ok(match self.byte()? {
            0 => ModelType::Unspecified,
            1 => ModelType::Auto,
            2 => ModelType::Int,
            3 => ModelType::Bool,
            4 => ModelType::Unit,
            5 => ModelType::BitVec(self.option(Reader::number)?),
            6 => ModelType::Struct(self.list(Reader::model_field)?),
            7 => ModelType::Named(self.name()?),
            _ => return Err(Broken),
        })
    }

    fn model_field(&mut self) -> Read<ModelField> {
        Ok(ModelField {
            name: self.name()?,
            ty: self.model_type()?,
        })
    }

    fn boxed_spec_expr(&mut self) -> Read<Box<SpecExpr>> {
        self.spec_expr().and_then(boxed)
    }

    pub(super) fn spec_expr(&mut self) -> Read<SpecExpr> {
        Ok(match self.byte()? {
            0 => SpecExpr::ConstInt {
                val: self.integer()?,
                pos: self.pos()?,
            },
            1 => SpecExpr::ConstBitVec {
                val: self.large_number()?,
                width: self.number()?,
                pos: self.pos()?,
            },
            2 => SpecExpr::ConstBool {
                val: self.flag()?,
                pos: self.pos()?,
            },
            3 => SpecExpr::Var {
                var: self.name()?,
                pos: self.pos()?,
            },
            4 => SpecExpr::As {
                x: self.boxed_spec_expr()?,
                ty: self.model_type()?,
                pos: self.pos()?,
            },
            5 => SpecExpr::Field {
                field: self.name()?,
                x: self.boxed_spec_expr()?,
                pos: self.pos()?,
            },
            6 => SpecExpr::Discriminator {
                variant: self.name()?,
                x: self.boxed_spec_expr()?,
                pos: self.pos()?,
            },
            7 => SpecExpr::Op {
                op: self.operator()?,
                args: self.list(Reader::spec_expr)?,
                pos: self.pos()?,
            },
            8 => SpecExpr::Match {
                x: self.boxed_spec_expr()?,
                arms: self.list(Reader::arm)?,
                pos: self.pos()?,
            },
            9 => SpecExpr::Let {
                defs: self.list(Reader::spec_let)?,
                body: self.boxed_spec_expr()?,
                pos: self.pos()?,
            },
            10 => SpecExpr::With {
                decls: self.names()?,
                body: self.boxed_spec_expr()?,
                pos: self.pos()?,
            },
            11 => SpecExpr::Macro {
                params: self.names()?,
                body: self.boxed_spec_expr()?,
                pos: self.pos()?,
            },
            12 => SpecExpr::Expand {
                name: self.name()?,
                args: self.list(Reader::spec_expr)?,
                pos: self.pos()?,
            },
            13 => SpecExpr::Pair {
                l: self.boxed_spec_expr()?,
                r: self.boxed_spec_expr()?,
                pos: self.pos()?,
            },
            14 => SpecExpr::Enum {
                name: self.name()?,
                variant: self.name()?,
                args: self.list(Reader::spec_expr)?,
                pos: self.pos()?,
            },
            15 => SpecExpr::Struct {
                fields: self.list(Reader::field_init)?,
                pos: self.pos()?,
            },
            _ => return Err(Broken),
        })
    }

    fn operator(&mut self) -> Read<SpecOp> {
        let place = self.byte()?;
        OPERATORS.get(usize::from(place)).copied().ok_or(Broken)
    }

    fn arm(&mut self) -> Read<Arm> {
        Ok(Arm {
            variant: self.name()?,
            args: self.names()?,
            body: self.spec_expr()?,
            pos: self.pos()?,
        })
    }

    fn spec_let(&mut self) -> Read<(Ident, SpecExpr)> {
        Ok((self.name()?, self.spec_expr()?))
    }

    fn field_init(&mut self) -> Read<FieldInit> {
        Ok(FieldInit {
            name: self.name()?,
            value: self.boxed_spec_expr()?,
            pos: self.pos()?,
        })
    }
}
