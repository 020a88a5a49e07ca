//! Prints trees, by the names of upstream's module.
//!
//! The static library prints texts, not trees, so this printer is written here: it isn't proved,
//! and is tested to print as [`format()`](crate::format()) does.

mod definitions;
mod operators;
mod rules;
mod specs;

use crate::ast::{Def, Ident};
use std::fmt;
use std::io::{self, Write};

/// The width at which `Display` prints, and `isle-fmt` by default.
const WIDTH: usize = 78;

/// Prints definitions at a width in bytes, with an empty line between two.
///
/// ```
/// let defs = isle_syntax::parse("(rule (lower (iadd x y)) (add x y))")?;
/// let mut out = Vec::new();
/// isle_syntax::printer::print(&defs, 20, &mut out).unwrap();
/// assert_eq!(out, b"(rule\n    (lower (iadd x y))\n    (add x y)\n)\n");
/// # Ok::<(), isle_syntax::Refusal>(())
/// ```
///
/// # Errors
///
/// Those of the writer.
///
/// # Panics
///
/// If a pattern is an argument of a macro, which nothing spells.
pub fn print<W: Write>(defs: &[Def], width: usize, out: &mut W) -> io::Result<()> {
    for (number, def) in defs.iter().enumerate() {
        if number > 0 {
            out.write_all(b"\n")?;
        }
        print_node(def, width, out)?;
        out.write_all(b"\n")?;
    }
    Ok(())
}

/// Prints one node at a width in bytes, without a line feed behind it.
///
/// # Errors
///
/// Those of the writer.
///
/// # Panics
///
/// As [`print()`].
pub fn print_node<N: ToSExpr, W: Write>(node: &N, width: usize, out: &mut W) -> io::Result<()> {
    out.write_all(laid_out(&node.to_sexpr(), width).as_bytes())
}

/// Prints one node to standard output, at a width of 120 bytes.
///
/// # Errors
///
/// Those of standard output.
///
/// # Panics
///
/// As [`print()`].
pub fn dump<N: ToSExpr>(node: &N) -> io::Result<()> {
    print_node(node, 120, &mut io::stdout())
}

/// An S-expression, as it is laid out.
#[derive(Clone, Debug, PartialEq, Eq)]
pub enum SExpr {
    /// A word.
    Atom(String),
    /// A word, ` @ ` and an S-expression.
    Binding(String, Box<SExpr>),
    /// A list in parentheses.
    List(Vec<SExpr>),
}

/// What has an S-expression. With it, a type of yours can be printed, too.
pub trait ToSExpr {
    /// The S-expression.
    ///
    /// # Panics
    ///
    /// If a pattern in the node is an argument of a macro.
    fn to_sexpr(&self) -> SExpr;
}

/// The text of an identifier.
impl fmt::Display for Ident {
    fn fmt(&self, f: &mut fmt::Formatter<'_>) -> fmt::Result {
        f.pad(&self.0)
    }
}

/// The print of a definition at 78 columns, as [`print_node`] has it.
impl fmt::Display for Def {
    fn fmt(&self, f: &mut fmt::Formatter<'_>) -> fmt::Result {
        f.write_str(&laid_out(&self.to_sexpr(), WIDTH))
    }
}

/// An atom.
fn atom(text: impl ToString) -> SExpr {
    SExpr::Atom(text.to_string())
}

/// A list of nodes.
fn list<'a, N: ToSExpr + 'a>(nodes: impl IntoIterator<Item = &'a N>) -> SExpr {
    SExpr::List(nodes.into_iter().map(N::to_sexpr).collect())
}

/// A list of words and nodes, step by step.
struct Items(Vec<SExpr>);

impl Items {
    /// Begins with a word.
    fn tagged(word: &str) -> Items {
        Items(vec![atom(word)])
    }

    fn and(mut self, item: SExpr) -> Items {
        self.0.push(item);
        self
    }

    fn node(self, node: &impl ToSExpr) -> Items {
        self.and(node.to_sexpr())
    }

    fn nodes<'a, N: ToSExpr + 'a>(mut self, nodes: impl IntoIterator<Item = &'a N>) -> Items {
        self.0.extend(nodes.into_iter().map(N::to_sexpr));
        self
    }

    /// Appends a word, if the flag is set.
    fn flag(self, is_set: bool, word: &str) -> Items {
        if is_set { self.and(atom(word)) } else { self }
    }

    fn list(self) -> SExpr {
        SExpr::List(self.0)
    }
}

/// The room that an S-expression takes on one line, and how many it is with those in it.
#[derive(Clone, Copy, Default)]
struct Size {
    room: usize,
    count: usize,
}

/// Appends the size of an S-expression and then those of what is in it, in order.
fn measure(sexpr: &SExpr, sizes: &mut Vec<Size>) -> Size {
    let place = sizes.len();
    sizes.push(Size::default());
    let mut size = match sexpr {
        SExpr::Atom(text) => Size {
            room: text.len(),
            count: 0,
        },
        SExpr::Binding(name, inner) => {
            let inner = measure(inner, sizes);
            Size {
                room: name.len() + " @ ".len() + inner.room,
                count: inner.count,
            }
        }
        // Parentheses and a blank between two; upstream counts an empty list as one byte.
        SExpr::List(items) => items.iter().fold(
            Size {
                room: items.len() + 1,
                count: 0,
            },
            |sum, item| {
                let size = measure(item, sizes);
                Size {
                    room: sum.room + size.room,
                    count: sum.count + size.count,
                }
            },
        ),
    };
    size.count += 1;
    sizes[place] = size;
    size
}

/// The layout of an S-expression at a width.
fn laid_out(sexpr: &SExpr, width: usize) -> String {
    let mut sizes = Vec::new();
    let size = measure(sexpr, &mut sizes);
    let mut layout = Layout {
        out: String::with_capacity(size.room),
        sizes: &sizes,
        column: 0,
        indent: 0,
        width,
    };
    layout.put_broken(sexpr);
    layout.out
}

/// A layout, as far as it is written.
struct Layout<'a> {
    out: String,
    /// The sizes of the S-expressions to come.
    sizes: &'a [Size],
    /// How many bytes the line has, its indentation apart.
    column: usize,
    /// How many lists are broken around the line.
    indent: usize,
    width: usize,
}

impl Layout<'_> {
    fn put(&mut self, text: &str) {
        self.out.push_str(text);
        self.column += text.len();
    }

    fn begin_line(&mut self) {
        self.out.push('\n');
        self.out.push_str(&"    ".repeat(self.indent));
        self.column = 0;
    }

    /// Puts an S-expression, whose lists are broken where they do not fit.
    fn put_broken(&mut self, sexpr: &SExpr) {
        let Size { room, count } = self.sizes[0];
        match sexpr {
            SExpr::List(items) if self.width.checked_sub(self.column) < Some(room) => {
                self.sizes = &self.sizes[1..];
                self.put_lines(items);
            }
            SExpr::Binding(name, inner) => {
                self.sizes = &self.sizes[1..];
                self.put(name);
                self.put(" @ ");
                self.put_broken(inner);
            }
            _ => {
                self.sizes = &self.sizes[count..];
                self.put_whole(sexpr);
            }
        }
    }

    /// Puts the items of a list, each on a line of its own.
    fn put_lines(&mut self, items: &[SExpr]) {
        self.put("(");
        if let [first, rest @ ..] = items {
            self.put_broken(first);
            self.indent += 1;
            for item in rest {
                self.begin_line();
                self.put_broken(item);
            }
            self.indent -= 1;
            self.begin_line();
        }
        self.put(")");
    }

    /// Puts an S-expression on one line.
    fn put_whole(&mut self, sexpr: &SExpr) {
        match sexpr {
            SExpr::Atom(text) => self.put(text),
            SExpr::Binding(name, inner) => {
                self.put(name);
                self.put(" @ ");
                self.put_whole(inner);
            }
            SExpr::List(items) => {
                self.put("(");
                for (number, item) in items.iter().enumerate() {
                    if number > 0 {
                        self.put(" ");
                    }
                    self.put_whole(item);
                }
                self.put(")");
            }
        }
    }
}
