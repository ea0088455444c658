//! What is stored in the repository and made by this model: the samples, what
//! each Rattle program is run on and must write, and the rows of the test tray.

use std::path::{Path, PathBuf};

use crate::{demo, lookup, lookup_cases, rows, samples, sheet};

/// Each stored file, with the bytes that it must hold.
pub fn files() -> Vec<(PathBuf, Vec<u8>)> {
    let top = Path::new(env!("CARGO_MANIFEST_DIR")).join("..");
    let mut files = vec![
        ("bindings/tests/rows.txt".into(), rows::text().into_bytes()),
        ("crates/program_list_cases/stdin".into(), samples::cases_input()),
        (
            "crates/program_list_cases/stdout".into(),
            samples::cases_output().into_bytes(),
        ),
        ("crates/program_variation_cases/stdin".into(), lookup_cases::input()),
        (
            "crates/program_variation_cases/stdout".into(),
            lookup_cases::output().into_bytes(),
        ),
    ];
    for (name, bytes) in samples::shipped() {
        let text = sheet::list(&bytes).into_bytes();
        if name == "example" {
            files.push(("crates/program_list/stdin".to_string(), bytes.clone()));
            files.push(("crates/program_list/stdout".to_string(), text.clone()));
        }
        if name == "variation" {
            let (latitude, column) = (660, 2);
            let answer = lookup::line(lookup::sheet_value(&bytes, latitude, column));
            let words = format!("{latitude}\n{column}\n");
            files.push(("crates/program_variation/args".to_string(), words.into_bytes()));
            files.push(("crates/program_variation/stdin".to_string(), bytes.clone()));
            files.push(("crates/program_variation/stdout".to_string(), answer.into_bytes()));
        }
        if name == "navigator" {
            let answer = demo::text(&bytes).into_bytes();
            files.push(("crates/program_demo/stdin".to_string(), bytes.clone()));
            files.push(("crates/program_demo/stdout".to_string(), answer));
        }
        files.push((format!("samples/{name}.sheet"), bytes));
        files.push((format!("samples/{name}.list"), text));
    }
    files
        .into_iter()
        .map(|(name, bytes)| (top.join(name), bytes))
        .collect()
}
