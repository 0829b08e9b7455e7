// The registry that the original's `register` functions fill. Nothing is looked up in it here.
pub mod compiler {
    use crate::coeff_table::CoeffTable;
    use crate::node::{InputSpec, OutputSpec, UGen, UGenCategory};
    use alloc::boxed::Box;
    use alloc::sync::Arc;

    pub type TableUGenFactory = Arc<dyn Fn(Arc<CoeffTable>) -> Box<dyn UGen>>;

    pub struct UGenRegistry;

    impl UGenRegistry {
        pub fn register_table_bound(
            &mut self,
            _name: &str,
            _factory: TableUGenFactory,
            _category: UGenCategory,
            _inputs: &[InputSpec],
            _outputs: &[OutputSpec],
        ) {
        }
    }
}
