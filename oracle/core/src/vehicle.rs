pub trait BasicVehicle {
    fn start_location(&self) -> usize;
    fn end_location(&self) -> usize;
}
