pub mod delayline;
pub mod filters;
pub mod partials;
pub mod partials_blend;
pub mod rng;
