pub trait BasicStop {
    fn location(&self) -> usize;
}
