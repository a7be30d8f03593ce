//! Writes the files of the folders in `examples` anew.

#[cfg(library)]
fn main() -> std::io::Result<()> {
    let folder = std::path::Path::new(env!("CARGO_MANIFEST_DIR")).join("../../examples");
    for example in simulated::examples::all() {
        let place = folder.join(example.name);
        std::fs::create_dir_all(&place)?;
        for (name, bytes) in example.files() {
            std::fs::write(place.join(name), bytes)?;
        }
    }
    Ok(())
}

#[cfg(not(library))]
fn main() {}
