//! Writes the files that are stored beside the Rattle programs, from this
//! model alone.

fn main() {
    for (path, bytes) in ds2505_model::stored::files() {
        std::fs::write(&path, bytes).unwrap_or_else(|error| panic!("{}: {error}", path.display()));
    }
}
