#[path = "../../copied/transcript/traits.rs"]
pub mod traits;
