//! Generated texts of ISLE, whole and damaged, the same in each run.

/// Pseudorandom numbers from a seed.
pub struct Chance(u64);

impl Chance {
    pub fn new(seed: u64) -> Chance {
        Chance(seed.wrapping_mul(0x9E37_79B9_7F4A_7C15) | 1)
    }

    /// The next number below `end`.
    pub fn below(&mut self, end: usize) -> usize {
        self.0 ^= self.0 << 13;
        self.0 ^= self.0 >> 7;
        self.0 ^= self.0 << 17;
        (self.0 >> 33) as usize % end
    }

    fn one_of<'a>(&mut self, words: &[&'a str]) -> &'a str {
        words[self.below(words.len())]
    }
}

const NAMES: [&str; 8] = [
    "x", "iadd", "lower", "Inst.Add", "ty_32", "größe", "add_imm", "$I64",
];

const BLANKS: [&str; 6] = [" ", " ", "  ", "\n", "\t", " (; a (; nested ;) comment ;) "];

/// A text of some definitions; one in four is damaged.
pub fn text(seed: u64) -> String {
    let chance = &mut Chance::new(seed);
    let mut text = String::new();
    for _ in 0..chance.below(6) {
        text += &definition(chance);
        text += chance.one_of(&["\n", "\n\n", " ", " ; a comment\n"]);
    }
    if chance.below(4) == 0 {
        damage(chance, &mut text);
    }
    text
}

fn definition(chance: &mut Chance) -> String {
    let name = chance.one_of(&NAMES[..7]);
    match chance.below(7) {
        0 => {
            let flags = chance.one_of(&["", "pure ", "multi ", "pure multi partial "]);
            format!("(decl {flags}{name} {} T)", list(chance, 0, name_node))
        }
        1 => format!(
            "(type {name} (enum A {} (C (x y))))",
            list(chance, 1, name_node)
        ),
        2 => format!("(extractor ({name} x y) {})", list(chance, 3, pattern)),
        3 => format!("(extern constructor {name} {})", chance.one_of(&NAMES)),
        4 => format!("(convert A {name} B)"),
        5 => format!(
            "(spec ({name} x) (provide {}))",
            list(chance, 2, expression)
        ),
        _ => {
            let blank = chance.one_of(&BLANKS);
            let head = chance.one_of(&["(rule", "(rule 5", "(rule a_rule -1"]);
            let pattern = list(chance, 3, pattern);
            let condition = chance.one_of(&["", "(if-let x (f y)) ", "(if (g)) "]);
            format!(
                "{head}{blank}{pattern} {condition}{})",
                expression(chance, 4)
            )
        }
    }
}

/// A list of a name and some nodes, each at most this deep.
fn list(chance: &mut Chance, depth: usize, node: fn(&mut Chance, usize) -> String) -> String {
    let mut list = format!("({}", chance.one_of(&NAMES[..7]));
    for _ in 0..chance.below(5) {
        list += chance.one_of(&BLANKS);
        list += &node(chance, depth.saturating_sub(1));
    }
    list + ")"
}

fn name_node(chance: &mut Chance, _depth: usize) -> String {
    format!("({})", chance.one_of(&NAMES[..7]))
}

fn pattern(chance: &mut Chance, depth: usize) -> String {
    match chance.below(6) {
        0 => "_".into(),
        1 => format!("x @ {}", list(chance, depth, leaf)),
        2 if depth > 0 => list(chance, depth, pattern),
        _ => leaf(chance, depth),
    }
}

fn expression(chance: &mut Chance, depth: usize) -> String {
    match chance.below(5) {
        0 if depth > 0 => format!("(let ((a T {})) a)", expression(chance, depth - 1)),
        1 | 2 if depth > 0 => list(chance, depth, expression),
        _ => leaf(chance, depth),
    }
}

fn leaf(chance: &mut Chance, _depth: usize) -> String {
    match chance.below(3) {
        0 => chance
            .one_of(&["0", "-1", "0x_ff", "1_000", "true", "#b"])
            .into(),
        _ => chance.one_of(&NAMES).into(),
    }
}

/// Removes a character, inserts one, or cuts the text.
fn damage(chance: &mut Chance, text: &mut String) {
    let mut at = chance.below(text.len() + 1);
    while !text.is_char_boundary(at) {
        at -= 1;
    }
    match chance.below(3) {
        0 if at < text.len() => drop(text.remove(at)),
        1 => text.truncate(at),
        _ => text.insert(at, ['(', ')', '@', '\u{c}', '+', ';'][chance.below(6)]),
    }
}
