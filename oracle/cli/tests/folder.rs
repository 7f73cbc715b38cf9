//! The folder examples/: its files are what the command writes, and the places in the sheets are those in the Nix
//! texts.

use std::collections::BTreeMap;
use std::path::Path;

use oracle::examples;
use sheet::{kind, Node};

/// The files of a folder by their names.
fn files(folder: &Path) -> BTreeMap<String, Vec<u8>> {
    let entries = std::fs::read_dir(folder).expect("the folder can be read").map(|entry| entry.expect("its files too"));
    let read = |entry: std::fs::DirEntry| (entry.file_name().to_string_lossy().into_owned(), std::fs::read(entry.path()).expect("a file"));
    entries.map(read).collect()
}

#[test]
fn the_folder_is_what_the_command_writes() {
    let written = std::env::temp_dir().join(format!("oracle-examples-{}", std::process::id()));
    let status = std::process::Command::new(env!("CARGO_BIN_EXE_oracle")).arg("examples").arg(&written).status();
    assert!(status.expect("the oracle starts").success());
    let (now, kept) = (files(&written), files(&Path::new(env!("CARGO_MANIFEST_DIR")).join("../../examples")));
    std::fs::remove_dir_all(&written).expect("the folder goes");
    assert_eq!(now.keys().collect::<Vec<_>>(), kept.keys().collect::<Vec<_>>());
    for (name, bytes) in &now {
        assert!(kept[name] == *bytes, "examples/{name} is not what `oracle examples` writes");
    }
    assert_eq!(now.len(), examples::MARKED.len() + examples::LINES.len() + 2, "a sheet each, a script and the table");
}

/// What is wrong with a node's place, if anything.
fn misplaced(node: &Node, parent: Option<&Node>, nix: &str) -> Option<String> {
    let (from, to) = (node.from as usize, node.to as usize);
    let inside = parent.is_none_or(|parent| parent.from <= node.from && node.to <= parent.to);
    let Some(text) = nix.as_bytes().get(from..to).filter(|_| inside) else {
        return Some(format!("{from}..{to} of kind {} lies outside its parent", node.kind));
    };
    let own = matches!(node.kind, kind::IDENT | kind::INTEGER);
    (own && text != node.text).then(|| format!("{from}..{to} is not {}", String::from_utf8_lossy(&node.text)))
}

#[test]
fn places_are_those_of_the_nix_text() {
    for example in examples::all() {
        let nodes = example.nodes().expect(example.name);
        assert_eq!(sheet::check::check(&sheet::write(&nodes)).as_ref(), Ok(&nodes), "{}", example.name);
        assert_eq!((nodes[0].from, nodes[0].to as usize), (0, example.nix.len()), "{}", example.name);
        let mut parents = vec![None; nodes.len()];
        for (own, node) in nodes.iter().enumerate() {
            node.kids.iter().flatten().for_each(|&kid| parents[kid as usize] = Some(&nodes[own]));
            assert_eq!(misplaced(node, parents[own], example.nix), None, "{}", example.name);
        }
    }
}

/// Kids of a node come one after the other in the text; a let's body, the first kid, comes last.
#[test]
fn kids_follow_one_another() {
    for example in examples::all() {
        let nodes = example.nodes().expect(example.name);
        for node in &nodes {
            let mut kids: Vec<&Node> = node.kids.iter().flatten().map(|&kid| &nodes[kid as usize]).collect();
            if node.kind == kind::LET_IN && node.kids[0].is_some() {
                kids.rotate_left(1);
            }
            assert!(kids.windows(2).all(|pair| pair[0].to <= pair[1].from), "{}: kids of kind {}", example.name, node.kind);
        }
    }
}

#[test]
fn a_script_says_what_comes_of_it() {
    let example = examples::all().find(|example| example.script.is_some()).expect("line D has a script");
    let mut book = book::Book::new(tix::Tix::new(&example.nodes().expect(example.name)));
    for line in example.script.unwrap_or("").lines().filter(|line| !line.starts_with('#')) {
        assert!(line.contains("  # "), "`{line}` does not say what comes of it");
    }
    let outcomes: Vec<String> = example.calls().expect(example.name).iter().map(|call| book.call(call).to_string()).collect();
    let told = |line: &str| match line.split_once("# ").map_or("", |(_, told)| told) {
        told if told.starts_with("none") => "answer=0 to= length=0 list=".to_string(),
        told if told.starts_with('n') && line.starts_with("ask-ref") => format!("answer=1 to={} length=0 list=", &told[1..]),
        "no use" => "length=0 list=".to_string(),
        told if line.starts_with("set") => format!("changed=1 length=1 list={}", &told[1..told.find(' ').unwrap_or(told.len())]),
        told => format!("length=1 list={}", &told[1..]),
    };
    let lines = example.script.unwrap_or("").lines().filter(|line| !line.starts_with('#'));
    assert_eq!(outcomes, lines.map(told).collect::<Vec<_>>());
}
