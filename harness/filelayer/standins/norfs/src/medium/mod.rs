pub use norfs_driver::medium::{StorageMedium, WriteGranularity};
