// What cpu.rs asks of the crate that it stands in: the interrupts as published, and of the configuration `is_dmg`. Taken in by main.rs and judge.rs.
#[path = "../mizu/interrupts.rs"]
mod interrupts;
mod memory {
    pub use super::interrupts::InterruptType;
}

#[derive(Default, Clone, Copy, save_state::Savable)]
pub struct GameBoyConfig {
    pub is_dmg: bool,
}
