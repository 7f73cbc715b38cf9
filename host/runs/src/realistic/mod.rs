//! Sheets like the files that people write, where the random ones are like nothing: a NixOS module, with a pattern of
//! arguments, a `with`, a let of fifty names, options, and settings of all sorts under shared paths. The texts are
//! drawn from short lists; pointers are those of a text. The same seed gives the same sheet on every machine.
//!
//! - `nix`: trees for the forms of the language; `sections`: what stands in the module.

mod nix;
mod sections;

use crate::lower::Named;
use generate::tree::{Pointers, Tree};
use generate::Rng;
use nix::*;
use sections::Sections;
use sheet::kind::*;
use sheet::Node;

/// The sizes that are measured, in nodes.
pub const SIZES: [usize; 3] = [512, 2_048, 4_096];
/// What such a sheet is called in a table.
pub const NAME: &str = "like a NixOS module";

/// How many sheets of each size are compared.
const EACH: u64 = 5;

/// The names that the let inherits; with those that it defines they are fifty.
const FROM_LIB: [&str; 18] = [
    "mkIf",
    "mkOption",
    "mkEnableOption",
    "mkDefault",
    "mkForce",
    "mkMerge",
    "types",
    "literalExpression",
    "optional",
    "optionals",
    "optionalString",
    "concatStringsSep",
    "mapAttrs",
    "mapAttrsToList",
    "filterAttrs",
    "attrNames",
    "getExe",
    "escapeShellArg",
];
const FROM_PKGS: [&str; 8] = ["writeText", "writeShellScript", "runCommand", "formats", "buildEnv", "coreutils", "gnused", "openssl"];

/// All that are compared: some of each size.
pub fn all() -> Vec<Named> {
    SIZES.iter().flat_map(|&nodes| (0..EACH).map(move |seed| named(seed, nodes))).collect()
}

/// The sheet of a seed and a size, with its name.
pub fn named(seed: u64, nodes: usize) -> Named {
    Named { name: format!("{NAME}, {nodes} nodes, seed {seed}"), nodes: sheet(seed, nodes) }
}

/// A sheet of exactly so many nodes, 512 or more.
pub fn sheet(seed: u64, nodes: usize) -> Vec<Node> {
    let mut sections = Sections::new(seed);
    let head = Head::new(&mut sections);
    let (mut options, mut config) = (Vec::new(), Vec::new());
    let mut left = nodes - head.file(&options, &config, 0).size();
    loop {
        let (section, of_options) = sections.next();
        let size = section.iter().map(Tree::size).sum();
        match left.checked_sub(size) {
            Some(rest) => left = rest,
            // What is too large for the rest is left out, and the rest filled with single settings and the last list.
            None => break,
        }
        if of_options { &mut options } else { &mut config }.extend(section);
    }
    while let Some(rest) = left.checked_sub(sections::SETTING) {
        config.push(sections.setting());
        left = rest;
    }
    head.file(&options, &config, left).nodes(&mut Rng::new(seed), Pointers::Nested)
}

/// What a module has whatever its size: the names of its let.
struct Head {
    names: Vec<Tree>,
}

impl Head {
    fn new(sections: &mut Sections) -> Self {
        let mut names = vec![
            entry(&["cfg"], select("config", &["services", "app"])),
            inherit_from(id("lib"), &FROM_LIB),
            inherit_from(id("pkgs"), &FROM_PKGS),
        ];
        names.extend(sections.definitions());
        Head { names }
    }

    /// The file with these options and settings, and a list of so many uses of names.
    fn file(&self, options: &[Tree], config: &[Tree], uses: usize) -> Tree {
        let texts = FROM_LIB.iter().chain(&sections::DEFINED).cycle();
        let modules = entry(&["boot", "kernelModules"], list(texts.take(uses).map(|text| id(text)).collect()));
        let settings: Vec<Tree> = config.iter().cloned().chain([modules]).collect();
        let body = set(vec![
            entry(&["imports"], list(vec![path("./hardware.nix"), path("./users.nix")])),
            entry(&["options", "services", "app"], set(options.to_vec())),
            entry(&["config"], apply(id("mkIf"), vec![select("cfg", &["enable"]), set(settings)])),
        ]);
        let kids = [body].into_iter().chain(self.names.iter().cloned()).collect();
        let with = Tree::full(WITH, vec![id("lib"), Tree::full(LET_IN, kids)]);
        let arguments = [("config", None), ("lib", None), ("pkgs", None), ("modulesPath", Some(id("null")))];
        Tree::full(ROOT, vec![function(Some("args"), &arguments, with)])
    }
}

#[cfg(test)]
mod tests {
    use super::*;
    use crate::lower::assert_accepted;
    use canon::{Answer, Reading};
    use tix::{with_big_stack, Tix};

    #[test]
    fn all_are_accepted_and_of_their_size() {
        assert_accepted(all());
        for nodes in SIZES {
            for seed in 0..20 {
                assert_eq!(sheet(seed, nodes).len(), nodes, "seed {seed}");
            }
        }
        assert!(sheet(3, 2_048) == sheet(3, 2_048) && sheet(3, 2_048) != sheet(4, 2_048));
    }

    /// The let has fifty names, few uses are left without an answer, and none of the answers is missing.
    #[test]
    fn they_are_like_files() {
        assert_eq!(1 + FROM_LIB.len() + FROM_PKGS.len() + sections::DEFINED.len(), 50);
        for nodes in SIZES {
            let facts = with_big_stack(|| Tix::new(&sheet(1, nodes)).facts());
            assert_eq!(facts.module.diagnostics, []);
            let answers = facts.resolution.answers.values();
            let count = |sort: fn(&Answer) -> bool| answers.clone().filter(|answer| sort(answer)).count();
            let (defined, builtin) = (count(|answer| matches!(answer, Answer::Definition(_))), count(|a| matches!(a, Answer::Builtin(_))));
            let (withs, none) = (count(|answer| matches!(answer, Answer::Withs(_))), count(|a| matches!(a, Answer::None)));
            assert!(defined > 10 * none && defined > builtin && builtin > 0 && withs > 0, "{nodes}: {defined} {builtin} {withs} {none}");
        }
    }
}
