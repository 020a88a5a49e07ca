//! Definitions.

use super::{Broken, Read, Reader};
use crate::ast::{
    Attr, AttrKind, AttrTarget, Converter, Decl, Def, Extern, Fields, Form, Instantiation, Model,
    ModelValue, Signature, StructField, StructFields, TupleField, TupleFields, Type, TypeValue,
    Variant,
};

impl Reader<'_> {
    /// The next definition, or `None` at the end of them.
    pub(super) fn next_def(&mut self) -> Read<Option<Def>> {
        Ok(Some(match self.byte()? {
            0 => return Ok(None),
            1 => Def::Type(self.type_def()?),
            2 => Def::Rule(self.rule()?),
            3 => Def::Extractor(self.extractor()?),
            4 => Def::Decl(self.decl()?),
            5 => Def::Attr(self.attr()?),
            6 => Def::Spec(self.spec()?),
            7 => Def::SpecMacro(self.spec_macro()?),
            8 => Def::Model(self.model()?),
            9 => Def::State(self.state()?),
            10 => Def::Form(self.form()?),
            11 => Def::Instantiation(self.instantiation()?),
            12 => Def::Extern(self.external()?),
            13 => Def::Converter(self.converter()?),
            _ => return Err(Broken),
        }))
    }

    fn type_def(&mut self) -> Read<Type> {
        Ok(Type {
            name: self.name()?,
            is_extern: self.flag()?,
            is_nodebug: self.flag()?,
            ty: self.type_value()?,
            pos: self.pos()?,
        })
    }

    fn type_value(&mut self) -> Read<TypeValue> {
        Ok(match self.byte()? {
            0 => TypeValue::Primitive(self.name()?, self.pos()?),
            1 => TypeValue::Enum(self.list(Reader::variant)?, self.pos()?),
            2 => TypeValue::Struct(self.fields()?, self.pos()?),
            _ => return Err(Broken),
        })
    }

    fn variant(&mut self) -> Read<Variant> {
        Ok(Variant {
            name: self.name()?,
            fields: self.fields()?,
            pos: self.pos()?,
        })
    }

    fn fields(&mut self) -> Read<Fields> {
        Ok(match self.byte()? {
            0 => Fields::Unit,
            1 => Fields::Struct(StructFields {
                fields: self.list(Reader::struct_field)?,
                pos: self.pos()?,
            }),
            2 => Fields::Tuple(TupleFields {
                fields: self.list(Reader::tuple_field)?,
                pos: self.pos()?,
            }),
            _ => return Err(Broken),
        })
    }

    fn struct_field(&mut self) -> Read<StructField> {
        Ok(StructField {
            name: self.name()?,
            ty: self.name()?,
            pos: self.pos()?,
        })
    }

    fn tuple_field(&mut self) -> Read<TupleField> {
        Ok(TupleField {
            index: self.number()?,
            ty: self.name()?,
            pos: self.pos()?,
        })
    }

    fn decl(&mut self) -> Read<Decl> {
        Ok(Decl {
            term: self.name()?,
            arg_tys: self.names()?,
            ret_ty: self.name()?,
            pure: self.flag()?,
            multi: self.flag()?,
            partial: self.flag()?,
            rec: self.flag()?,
            pos: self.pos()?,
        })
    }

    fn attr(&mut self) -> Read<Attr> {
        Ok(Attr {
            target: self.attr_target()?,
            kinds: self.list(Reader::attr_kind)?,
            pos: self.pos()?,
        })
    }

    fn attr_target(&mut self) -> Read<AttrTarget> {
        Ok(match self.byte()? {
            0 => AttrTarget::Term(self.name()?),
            1 => AttrTarget::Rule(self.name()?),
            _ => return Err(Broken),
        })
    }

    fn attr_kind(&mut self) -> Read<AttrKind> {
        Ok(match self.byte()? {
            0 => AttrKind::Chain,
            1 => AttrKind::Priority,
            2 => AttrKind::Tag(self.name()?),
            _ => return Err(Broken),
        })
    }

    fn model(&mut self) -> Read<Model> {
        Ok(Model {
            name: self.name()?,
            val: self.model_value()?,
        })
    }

    fn model_value(&mut self) -> Read<ModelValue> {
        Ok(match self.byte()? {
            0 => ModelValue::TypeValue(self.model_type()?),
            1 => ModelValue::ConstValue(self.spec_expr()?),
            _ => return Err(Broken),
        })
    }

    fn signature(&mut self) -> Read<Signature> {
        Ok(Signature {
            args: self.list(Reader::model_type)?,
            ret: self.model_type()?,
            pos: self.pos()?,
        })
    }

    fn form(&mut self) -> Read<Form> {
        Ok(Form {
            name: self.name()?,
            signatures: self.list(Reader::signature)?,
            pos: self.pos()?,
        })
    }

    fn instantiation(&mut self) -> Read<Instantiation> {
        Ok(Instantiation {
            term: self.name()?,
            form: self.option(Reader::name)?,
            signatures: self.list(Reader::signature)?,
            tags: self.names()?,
            pos: self.pos()?,
        })
    }

    fn external(&mut self) -> Read<Extern> {
        Ok(match self.byte()? {
            0 => Extern::Extractor {
                term: self.name()?,
                func: self.name()?,
                pos: self.pos()?,
                infallible: self.flag()?,
            },
            1 => Extern::Constructor {
                term: self.name()?,
                func: self.name()?,
                pos: self.pos()?,
            },
            2 => Extern::Const {
                name: self.name()?,
                ty: self.name()?,
                pos: self.pos()?,
            },
            _ => return Err(Broken),
        })
    }

    fn converter(&mut self) -> Read<Converter> {
        Ok(Converter {
            term: self.name()?,
            inner_ty: self.name()?,
            outer_ty: self.name()?,
            pos: self.pos()?,
        })
    }
}
