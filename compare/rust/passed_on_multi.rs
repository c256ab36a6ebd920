/// Appended by compare/rust/copy.sh to a copy of relay-mix-multi, and no part of that crate: a
/// mixer's rows, which are private.
pub mod passed_on {
    #[inline]
    pub fn rows<const M: usize>(mixer: &super::Mixer<M>) -> [[f32; 4]; M] {
        mixer.rows
    }
}
