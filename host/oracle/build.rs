//! Finds the published carryfs source and makes the pieces that the oracle
//! compiles, in `OUT_DIR`. Nothing of it is copied into the repository.
//!
//! `src/volume/file.rs` is compiled from where it stands, by a `#[path]`, and
//! once more for the archive call, from a copy in `OUT_DIR` in which only
//! `MAX_UNIT_RUNS` is another. Of the other files only single items are wanted:
//! they are cut out as text, from their first line to the closing brace of the
//! same indentation (the source is formatted by rustfmt), and a piece that is
//! not found stops the build.
//!
//! `allocate_data` is cut out twice: as published, under a name of its own, and
//! with one statement put before its first, which asks for one run of blocks.
//!
//! The source is sought at `CARRYFS_SRC`, else beside the checkout. Where it
//! is absent the crate is built without the cfg `carryfs` and answers nothing.

use std::path::{Path, PathBuf};
use std::{env, fs};

const BESIDE_THE_CHECKOUT: &str = "../../../shared/docs/src";

/// Of the published `allocate_data`.
const FIRST_STATEMENT: &str = "let groups = self.forest.base.blocks.div_ceil(GROUP);";
/// What is put before it; `src/allocation.rs` has `allocate_run`.
const ONE_RUN: &str = "if let Some(run) = self.allocate_run(count, hint)? {
            return Ok(vec![run]);
        }";

fn main() {
    println!("cargo::rustc-check-cfg=cfg(carryfs)");
    println!("cargo::rerun-if-env-changed=CARRYFS_SRC");
    println!("cargo::rerun-if-changed=build.rs");
    let named = env::var_os("CARRYFS_SRC").map(PathBuf::from);
    let package = PathBuf::from(env::var_os("CARGO_MANIFEST_DIR").expect("set by cargo"));
    let root = package.join(named.as_deref().unwrap_or(Path::new(BESIDE_THE_CHECKOUT)));
    let Ok(root) = root.canonicalize() else {
        assert!(named.is_none(), "CARRYFS_SRC does not name a directory");
        println!("cargo::warning=no carryfs source: the oracle answers nothing");
        return;
    };
    println!("cargo::rerun-if-changed={}", root.display());
    println!("cargo::rustc-cfg=carryfs");

    let out = PathBuf::from(env::var_os("OUT_DIR").expect("set by cargo"));
    let put = |name: &str, text: String| fs::write(out.join(name), text).expect("OUT_DIR");
    let published = |path: &str| Published::read(&root, path);

    let file_mod = |path: &Path| {
        format!(
            "#[path = {path:?}]\n#[allow(dead_code, unreachable_pub, clippy::all)]\nmod file;\n"
        )
    };
    let file = published("src/volume/file.rs");
    println!("cargo::rustc-env=CARRYFS_FILE={}", file.path.display());
    put("file_mod.rs", file_mod(&file.path));
    // Document 02, W-207: "The oracle for the archive call is file.rs with
    // `MAX_UNIT_RUNS` set to 2."
    let archive = replaced(
        &file.text,
        "const MAX_UNIT_RUNS: usize = 4;",
        "const MAX_UNIT_RUNS: usize = 2;",
    );
    put("archive_file.rs", archive);
    put("archive_mod.rs", file_mod(&out.join("archive_file.rs")));

    let ondisk = published("ondisk/src/format.rs");
    let format = published("src/format.rs");
    put(
        "format.rs",
        [
            ondisk.cut("pub const BLOCK_BYTES"),
            ondisk.cut("pub const CHECKSUM_GROUP_BYTES"),
            ondisk.cut("pub fn checksum_slot("),
            ondisk.cut("pub fn compact_group("),
            ondisk.cut("pub fn expand_group("),
            ondisk.cut("pub fn set_checksum_slot("),
            ondisk.cut("pub fn all_zero("),
            format.cut("pub(crate) struct Page("),
            format.cut("impl Page {"),
        ]
        .concat(),
    );

    let tree = published("src/tree.rs");
    put(
        "tree.rs",
        [
            tree.cut("pub(crate) fn u64_le("),
            tree.cut("pub(crate) fn u64_be("),
            "impl<D: BlockDevice> Forest<'_, D> {\n".into(),
            tree.cut("pub fn write_data("),
            tree.cut("pub fn take_data("),
            tree.cut("pub fn read_data("),
            "}\n".into(),
        ]
        .concat(),
    );

    let allocation = published("src/allocation.rs");
    let allocate_data = allocation.cut("pub(crate) fn allocate_data(");
    // Document 02, W-208: "Block numbers are matched from then on with an
    // `allocate_data` that the harness changes alike". What follows the statement
    // is the published text.
    let one_run_first = replaced(
        &allocate_data,
        FIRST_STATEMENT,
        &format!("{ONE_RUN}\n        {FIRST_STATEMENT}"),
    );
    let as_published = replaced(
        &allocate_data,
        "fn allocate_data(",
        "fn allocate_data_as_published(",
    );
    put(
        "allocation.rs",
        [
            allocation.cut("pub(crate) const GROUP:"),
            allocation.cut("struct Range {"),
            "impl<D: BlockDevice> Transaction<'_, D> {\n".into(),
            one_run_first,
            as_published,
            allocation.cut("pub(crate) fn write_data("),
            allocation.cut("pub(crate) fn retire_data("),
            "}\n".into(),
        ]
        .concat(),
    );

    let namespace = published("src/volume/namespace.rs");
    put("namespace.rs", namespace.cut("pub(super) fn inode_key("));

    // Private items of file.rs that the cases P5 to P11 call. The oracle
    // itself runs the whole file; these stand apart from it.
    let joins = file.cut("let joins = |left: &Extent, right: &Extent| {");
    put(
        "private.rs",
        [
            file.cut("const BLOCKS_PER_UNIT:"),
            file.cut("const MAX_UNIT_RUNS:"),
            file.cut("pub(super) struct Extent {"),
            file.cut("struct Change<'a> {"),
            file.cut("impl Change<'_> {"),
            file.cut("fn retained_blocks("),
            file.cut("fn runs("),
            format!(
                "fn joins(left: &Extent, right: &Extent) -> bool {{\n{joins}\n    joins(left, right)\n}}\n"
            ),
        ]
        .concat(),
    );
}

/// The published text with `old`, which stands there once, replaced.
fn replaced(text: &str, old: &str, new: &str) -> String {
    let times = text.matches(old).count();
    assert!(times == 1, "`{old}` stands {times} times, not once");
    text.replace(old, new)
}

/// One published file.
struct Published {
    path: PathBuf,
    text: String,
}

impl Published {
    fn read(root: &Path, path: &str) -> Self {
        let path = root.join(path);
        let text =
            fs::read_to_string(&path).unwrap_or_else(|error| panic!("{}: {error}", path.display()));
        Self { path, text }
    }

    /// The item whose first line starts with `head`, with the comments and
    /// attributes before it.
    fn cut(&self, head: &str) -> String {
        let lines: Vec<&str> = self.text.lines().collect();
        let starts = |line: &&str| line.trim_start().starts_with(head);
        let found: Vec<usize> = (0..lines.len()).filter(|&n| starts(&lines[n])).collect();
        let &[at] = found.as_slice() else {
            let (times, path) = (found.len(), self.path.display());
            panic!("{path}: `{head}` stands {times} times, not once");
        };
        let indent = &lines[at][..lines[at].len() - lines[at].trim_start().len()];
        let closes = |line: &str| {
            let rest = line.strip_prefix(indent);
            rest.is_some_and(|rest| rest == "}" || rest == "};")
        };
        let end = if lines[at].ends_with(';') {
            at
        } else {
            let close = (at..lines.len()).find(|&n| closes(lines[n]));
            close.unwrap_or_else(|| panic!("{}: `{head}` does not end", self.path.display()))
        };
        let first = (0..at)
            .rev()
            .take_while(|&n| {
                let line = lines[n].trim_start();
                line.starts_with("//") || line.starts_with("#[")
            })
            .last()
            .unwrap_or(at);
        lines[first..=end].join("\n") + "\n\n"
    }
}
