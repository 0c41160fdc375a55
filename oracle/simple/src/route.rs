mod table;

pub use table::TableRouter;
