//! What is stored beside the Rattle programs is what this model writes.

use ds2505_model::stored::files;

#[test]
fn stored_files_are_up_to_date() {
    for (path, bytes) in files() {
        let stored = std::fs::read(&path).unwrap_or_default();
        assert!(
            stored == bytes,
            "{} differs: run the program `stored`",
            path.display()
        );
    }
}
