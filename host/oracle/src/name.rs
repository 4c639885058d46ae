/// Stands for `crate::name::Name`. Left out: everything, as directories are;
/// the two functions of file.rs that take one are not called.
pub struct Name;
