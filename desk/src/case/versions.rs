//! Which programs were asked: by their octets, since they do not say a version.

use crate::cli::Failure;
use crate::{programs, sha256};

/// The library's header, whose version is the repository's.
const HEADER: &str = include_str!("../../../include/korvezul.h");

/// What a page names, each with its version or digest.
pub fn all() -> Result<Vec<(String, String)>, Failure> {
    let mut all = vec![(
        "desk".to_string(),
        format!("version {}", env!("CARGO_PKG_VERSION")),
    )];
    if let Some(version) = header_version(HEADER) {
        all.push((
            "korvezul (include/korvezul.h)".to_string(),
            format!("version {version}"),
        ));
    }
    for name in ["watch", "why"] {
        let path = programs::program(name);
        let octets = std::fs::read(&path)
            .map_err(|error| Failure::new(format!("cannot read {}: {error}", path.display())))?;
        all.push((
            format!("the program {name}"),
            format!("SHA-256 {}, {} octets", sha256::hex(&octets), octets.len()),
        ));
    }
    Ok(all)
}

/// Major, minor and patch, as the header defines them.
fn header_version(header: &str) -> Option<String> {
    let number = |part: &str| {
        let start = format!("#define KORVEZUL_VERSION_{part} ");
        let line = header.lines().find_map(|line| line.strip_prefix(&start))?;
        line.trim().parse::<u32>().ok()
    };
    Some(format!(
        "{}.{}.{}",
        number("MAJOR")?,
        number("MINOR")?,
        number("PATCH")?
    ))
}

#[cfg(test)]
mod tests {
    use super::*;

    #[test]
    fn the_header_says_its_version() {
        let header = "#define KORVEZUL_VERSION_MAJOR 4\n#define KORVEZUL_VERSION_MINOR 1\n#define KORVEZUL_VERSION_PATCH 0\n";
        assert_eq!(header_version(header).as_deref(), Some("4.1.0"));
        assert_eq!(header_version("#define KORVEZUL_VERSION_MAJOR 4\n"), None);
        assert!(header_version(HEADER).is_some());
    }
}
