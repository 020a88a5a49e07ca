//! Patterns, expressions, rules and extractors.

use super::{Broken, Read, Reader, boxed};
use crate::ast::{Expr, Extractor, IfLet, LetDef, Pattern, Rule};

impl Reader<'_> {
    pub(super) fn rule(&mut self) -> Read<Rule> {
        Ok(Rule {
            pattern: self.pattern()?,
            iflets: self.list(Reader::iflet)?,
            expr: self.expr()?,
            pos: self.pos()?,
            prio: self.option(Reader::priority)?,
            name: self.option(Reader::name)?,
        })
    }

    fn priority(&mut self) -> Read<i64> {
        i64::try_from(self.integer()?).map_err(|_| Broken)
    }

    fn iflet(&mut self) -> Read<IfLet> {
        Ok(IfLet {
            pattern: self.pattern()?,
            expr: self.expr()?,
            pos: self.pos()?,
        })
    }

    pub(super) fn extractor(&mut self) -> Read<Extractor> {
        Ok(Extractor {
            term: self.name()?,
            args: self.names()?,
            template: self.pattern()?,
            pos: self.pos()?,
        })
    }

    fn pattern(&mut self) -> Read<Pattern> {
        Ok(match self.byte()? {
            0 => Pattern::Var {
                var: self.name()?,
                pos: self.pos()?,
            },
            1 => Pattern::BindPattern {
                var: self.name()?,
                subpat: boxed(self.pattern()?)?,
                pos: self.pos()?,
            },
            2 => Pattern::ConstBool {
                val: self.flag()?,
                pos: self.pos()?,
            },
            3 => Pattern::ConstInt {
                val: self.integer()?,
                pos: self.pos()?,
            },
            4 => Pattern::ConstPrim {
                val: self.name()?,
                pos: self.pos()?,
            },
            5 => Pattern::Term {
                sym: self.name()?,
                args: self.list(Reader::pattern)?,
                pos: self.pos()?,
            },
            6 => Pattern::Wildcard { pos: self.pos()? },
            7 => Pattern::And {
                subpats: self.list(Reader::pattern)?,
                pos: self.pos()?,
            },
            8 => Pattern::MacroArg {
                index: self.number()?,
                pos: self.pos()?,
            },
            _ => return Err(Broken),
        })
    }

    fn expr(&mut self) -> Read<Expr> {
        Ok(match self.byte()? {
            0 => Expr::Term {
                sym: self.name()?,
                args: self.list(Reader::expr)?,
                pos: self.pos()?,
            },
            1 => Expr::Var {
                name: self.name()?,
                pos: self.pos()?,
            },
            2 => Expr::ConstBool {
                val: self.flag()?,
                pos: self.pos()?,
            },
            3 => Expr::ConstInt {
                val: self.integer()?,
                pos: self.pos()?,
            },
            4 => Expr::ConstPrim {
                val: self.name()?,
                pos: self.pos()?,
            },
            5 => Expr::Let {
                defs: self.list(Reader::let_def)?,
                body: boxed(self.expr()?)?,
                pos: self.pos()?,
            },
            _ => return Err(Broken),
        })
    }

    fn let_def(&mut self) -> Read<LetDef> {
        Ok(LetDef {
            var: self.name()?,
            ty: self.name()?,
            val: boxed(self.expr()?)?,
            pos: self.pos()?,
        })
    }
}
