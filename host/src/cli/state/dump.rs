//! Configuration space in the form that `lspci -x` writes and `lspci -F` reads.

use super::registers::chip;
use crate::cli::pair::Hub;
use mitrophel::Board;

/// The devices that a guest sees, with a blank line after each.
pub fn devices(hub: &Hub<'_>, board: Board) -> String {
    let mut text = String::new();
    for (device, class) in [(0, "Host bridge"), (1, "VGA compatible controller")] {
        if device == 1 && !hub.smram().graphics_on() {
            continue;
        }
        let bytes: Vec<u8> = (0..256).filter_map(|at| hub.config_byte(device, at)).collect();
        text.push_str(&format!("00:0{device}.0 {class}: Intel Corporation {}\n", chip(board)));
        for (row, bytes) in bytes.chunks(16).enumerate() {
            let bytes: String = bytes.iter().map(|byte| format!(" {byte:02x}")).collect();
            text.push_str(&format!("{row:x}0:{bytes}\n"));
        }
        text.push('\n');
    }
    text
}
