// The original's files, put together as one crate. What the original takes from files that are not here stands in
// node.rs, dsl.rs and delayline.rs; shim.rs has the substitutions of document 01 and what the comparison looks at.
#![allow(warnings)]
extern crate alloc;

macro_rules! ugen_spec {
    ($name:expr, category = $category:ident, inputs = [$($i:expr),* $(,)?], optional_inputs = [$($o:expr),* $(,)?], outputs = [$($out:expr),* $(,)?] $(,)?) => {
        fn spec(&self) -> crate::node::UGenSpec {
            crate::node::UGenSpec { name: $name }
        }
    };
}

pub mod buffer;
pub mod coeff_table;
pub mod context;
pub mod dsl;
pub mod node;
pub mod shim;
pub mod ugens;
pub mod wire;
