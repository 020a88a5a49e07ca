//! The one type of upstream's module of this name that its syntax layer uses.

/// A prefix of paths, and what stands for it in the names of
/// [`Files::from_paths`](crate::files::Files::from_paths).
#[derive(Clone, Debug)]
pub struct Prefix {
    /// The prefix.
    pub prefix: String,
    /// What stands for it.
    pub name: String,
}
