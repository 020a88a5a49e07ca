//! Patterns with arguments of macros in the places of variables.

use super::{Ident, Pattern};

impl Pattern {
    /// The pattern with an argument in the place of each variable that has one of these names; the
    /// argument's place is that of the first such name. A variable is one that stands alone, or
    /// that is bound to a wildcard.
    ///
    /// # Panics
    ///
    /// If the pattern already holds an argument of a macro.
    pub fn make_macro_template(&self, macro_args: &[Ident]) -> Pattern {
        match self {
            Pattern::Var { var, pos } => match place(var, macro_args) {
                Some(index) => Pattern::MacroArg { index, pos: *pos },
                None => self.clone(),
            },
            Pattern::BindPattern { var, subpat, pos } => {
                if !matches!(**subpat, Pattern::Wildcard { .. }) {
                    let subpat = Box::new(subpat.make_macro_template(macro_args));
                    let (var, pos) = (var.clone(), *pos);
                    return Pattern::BindPattern { var, subpat, pos };
                }
                match place(var, macro_args) {
                    Some(index) => Pattern::MacroArg { index, pos: *pos },
                    None => self.clone(),
                }
            }
            Pattern::Term { sym, args, pos } => {
                let args = args.iter().map(|it| it.make_macro_template(macro_args));
                let (sym, args) = (sym.clone(), args.collect());
                Pattern::Term {
                    sym,
                    args,
                    pos: *pos,
                }
            }
            Pattern::And { subpats, pos } => {
                let subpats = subpats.iter().map(|it| it.make_macro_template(macro_args));
                let (subpats, pos) = (subpats.collect(), *pos);
                Pattern::And { subpats, pos }
            }
            Pattern::ConstBool { .. }
            | Pattern::ConstInt { .. }
            | Pattern::ConstPrim { .. }
            | Pattern::Wildcard { .. } => self.clone(),
            Pattern::MacroArg { .. } => panic!("the pattern is a template already"),
        }
    }

    /// The template with a pattern in the place of each argument, or `None` if there are too few.
    pub fn subst_macro_args(&self, macro_args: &[Pattern]) -> Option<Pattern> {
        Some(match self {
            Pattern::MacroArg { index, .. } => macro_args.get(*index)?.clone(),
            Pattern::BindPattern { var, subpat, pos } => Pattern::BindPattern {
                var: var.clone(),
                subpat: Box::new(subpat.subst_macro_args(macro_args)?),
                pos: *pos,
            },
            Pattern::Term { sym, args, pos } => Pattern::Term {
                sym: sym.clone(),
                args: substituted(args, macro_args)?,
                pos: *pos,
            },
            Pattern::And { subpats, pos } => Pattern::And {
                subpats: substituted(subpats, macro_args)?,
                pos: *pos,
            },
            Pattern::Var { .. }
            | Pattern::ConstBool { .. }
            | Pattern::ConstInt { .. }
            | Pattern::ConstPrim { .. }
            | Pattern::Wildcard { .. } => self.clone(),
        })
    }
}

/// Each template with patterns put in, or `None` if there are too few.
fn substituted(templates: &[Pattern], macro_args: &[Pattern]) -> Option<Vec<Pattern>> {
    let patterns = templates.iter().map(|it| it.subst_macro_args(macro_args));
    patterns.collect()
}

/// The place of the first of these names that is a variable's.
fn place(var: &Ident, names: &[Ident]) -> Option<usize> {
    names.iter().position(|name| name.0 == var.0)
}
