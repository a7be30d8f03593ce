//! Sizes of the repository: lines, functions, edits and tests.

use std::path::{Path, PathBuf};

use crate::code;
use crate::files;
use crate::repository;

/// How many lines of some files are meant.
fn count(paths: &[PathBuf], is_meant: fn(&str) -> bool) -> Result<usize, String> {
    let mut sum = 0;
    for path in paths {
        let text = files::read(path)?;
        sum += text.lines().filter(|line| is_meant(line)).count();
    }
    Ok(sum)
}

fn lines(folder: &Path, ending: &str) -> Result<usize, String> {
    count(&files::all_with_ending(folder, ending)?, |_| true)
}

/// A crate's lines of code, of definitions, of those that describe code, and of proofs, its
/// functions, its must-fail edits and its further ones.
fn of_crate(root: &Path, name: &str) -> Result<[usize; 7], String> {
    let folder = root.join("crates").join(name);
    let specs = lines(&folder.join("specs"), "antt")?;
    let model = lines(&folder.join("specs/model"), "antt")?;
    Ok([
        lines(&folder.join("src"), "rt")?,
        specs - model,
        model,
        lines(&folder.join("proofs"), "antt")?,
        code::of_crate(root, name)?.len(),
        files::with_ending(&folder.join("must-fail"), "edit")?.len(),
        files::with_ending(&root.join("acceptance/code").join(name), "edit")?.len(),
    ])
}

/// The packages of the workspace in rust/.
fn packages(root: &Path) -> Result<Vec<String>, String> {
    let text = files::read(&root.join("rust/Cargo.toml"))?;
    let members = text.lines().find(|line| line.starts_with("members = "));
    let members = members.ok_or("rust/Cargo.toml has no members")?;
    let names = members.split('"').skip(1).step_by(2);
    Ok(names.map(str::to_string).collect())
}

/// A Rust package's lines of code, the build script's among them, of tests and examples, and
/// its `#[test]` functions.
fn of_package(root: &Path, name: &str) -> Result<[usize; 3], String> {
    let folder = root.join("rust").join(name);
    let below = |part: &str| files::all_with_ending(&folder.join(part), "rs");
    let code = [files::with_ending(&folder, "rs")?, below("src")?].concat();
    let tests = [below("tests")?, below("examples")?].concat();
    let all = [code.clone(), tests.clone()].concat();
    Ok([
        count(&code, |_| true)?,
        count(&tests, |_| true)?,
        count(&all, |line| line.trim() == "#[test]")?,
    ])
}

/// A number with a comma before its last three digits.
fn shown(number: &usize) -> String {
    match (number / 1000, number % 1000) {
        (0, rest) => rest.to_string(),
        (thousands, rest) => format!("{thousands},{rest:03}"),
    }
}

fn row(name: &str, numbers: &[usize]) -> String {
    let cells: Vec<String> = numbers.iter().map(shown).collect();
    format!("| {name} | {} |\n", cells.join(" | "))
}

/// Rows, and behind them their sum.
fn summed<const N: usize>(rows: &[(String, [usize; N])]) -> String {
    let mut sums = [0; N];
    let mut text = String::new();
    for (name, numbers) in rows {
        text += &row(&format!("`{name}`"), numbers);
        for (sum, number) in sums.iter_mut().zip(numbers) {
            *sum += number;
        }
    }
    text + &row("all", &sums)
}

/// The tables of sizes.
pub fn table(root: &Path) -> Result<String, String> {
    let mut crates = Vec::new();
    for c in repository::listed(root)? {
        crates.push((c.name.clone(), of_crate(root, &c.name)?));
    }
    let mut packages = Vec::new();
    for name in self::packages(root)? {
        let sizes = of_package(root, &name)?;
        packages.push((name, sizes));
    }
    let definitions = root.join("acceptance/definitions");
    let edits = files::with_ending(&definitions, "edit")?.len();
    Ok(format!(
        "\n| Crate | Code | Definitions | Models | Proofs | Functions | Must-fail edits | Further edits |\n|---|---|---|---|---|---|---|---|\n{}\n\
         Edits of definitions in `acceptance/definitions`: {edits}.\n\n\
         | Rust package | Code | Tests, examples | Test functions |\n|---|---|---|---|\n{}\n",
        summed(&crates),
        summed(&packages)
    ))
}

/// Whether two lines of the tables differ at most by a tenth in each number, so that small
/// numbers are the same.
pub fn are_near(stored: &str, printed: &str) -> bool {
    let cells = |line: &str| {
        line.replace(',', "")
            .split('|')
            .map(str::to_string)
            .collect()
    };
    let (stored, printed): (Vec<String>, Vec<String>) = (cells(stored), cells(printed));
    let is_near = |(stored, printed): (&String, &String)| {
        let number = |cell: &str| cell.trim().parse::<usize>().ok();
        match (number(stored), number(printed)) {
            (Some(stored), Some(printed)) => stored.abs_diff(printed) * 10 <= printed,
            _ => stored == printed,
        }
    };
    stored.len() == printed.len() && stored.iter().zip(&printed).all(is_near)
}

#[cfg(test)]
mod tests {
    use super::*;

    #[test]
    fn rows_are_summed() {
        let rows = [("a".to_string(), [1, 20]), ("b".to_string(), [3, 1004])];
        assert_eq!(
            summed(&rows),
            "| `a` | 1 | 20 |\n| `b` | 3 | 1,004 |\n| all | 4 | 1,024 |\n"
        );
    }

    #[test]
    fn near_lines() {
        let row = "| `a` | 5,110 | 9 | 0 |";
        for near in [row, "| `a` | 4,700 | 9 | 0 |", "| `a` | 5,600 | 9 | 0 |"] {
            assert!(are_near(near, row), "{near}");
        }
        for far in [
            "| `a` | 4,500 | 9 | 0 |",
            "| `a` | 5,110 | 8 | 0 |",
            "| `a` | 5,110 | 9 | 1 |",
            "| `b` | 5,110 | 9 | 0 |",
            "| `a` | 5,110 | 9 |",
            "",
        ] {
            assert!(!are_near(far, row), "{far}");
        }
    }

    #[test]
    fn sizes_of_this_repository() {
        let root = repository::root();
        let names = packages(&root).expect("packages");
        assert!(names.contains(&"simulated".to_string()), "{names:?}");
        let [code, tests, functions] = of_package(&root, "simulated").expect("a package");
        assert!(code > 500 && tests > 500 && functions > 20);
        let [code, definitions, _, proofs, functions, must_fail, further] =
            of_crate(&root, "walk").expect("a crate");
        assert!([code, definitions, proofs].iter().all(|lines| *lines > 50));
        assert!(functions > 5 && must_fail > 0 && further > 0);
    }
}
