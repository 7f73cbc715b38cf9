//! Random valid sheets by the name of their preset.

use generate::Preset;

/// A random valid sheet of the preset.
pub fn valid(preset: &str, seed: u64) -> Result<Vec<u8>, String> {
    match Preset::ALL.iter().find(|p| p.name() == preset) {
        Some(preset) => Ok(sheet::write(&preset.sheet(seed))),
        None => {
            let names: Vec<&str> = Preset::ALL.iter().map(|p| p.name()).collect();
            Err(format!("'{preset}' is no preset; there are: {}", names.join(" ")))
        }
    }
}
