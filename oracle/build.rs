//! Names the unchanged source's files, which stand outside the repository.
use std::path::Path;
use std::{env, fs};

fn main() {
    println!("cargo:rerun-if-env-changed=RUSTY_ESP_AUDIO");
    let here = env::var("CARGO_MANIFEST_DIR").unwrap();
    let root = env::var("RUSTY_ESP_AUDIO").unwrap_or(format!("{here}/../../shared/docs/src"));
    let source = fs::canonicalize(Path::new(&root).join("crates/rusty_esp_audio-core/src"))
        .unwrap_or_else(|e| panic!("no source at {root} (set RUSTY_ESP_AUDIO to a checkout): {e}"));
    println!("cargo:rerun-if-changed={}", source.display());
    let at = source.display();
    let text = format!(
        "#[path = \"{at}/elements/mod.rs\"]\npub mod elements;\n#[path = \"{at}/pipeline.rs\"]\npub mod pipeline;\n"
    );
    fs::write(Path::new(&env::var("OUT_DIR").unwrap()).join("source.rs"), text).unwrap();
}
