//! What stands in the module: definitions of the let, options, and settings of all sorts.

use super::nix::*;
use generate::tree::Tree;
use generate::Rng;

/// The nodes of a single setting.
pub const SETTING: usize = 6;

/// The names that the let defines, beside `cfg` and the inherited ones.
pub const DEFINED: [&str; 23] = [
    "user",
    "group",
    "stateDir",
    "port",
    "domain",
    "package",
    "settings",
    "defaults",
    "configFile",
    "environment",
    "startScript",
    "healthCheck",
    "toFlag",
    "mkUnit",
    "mkHost",
    "extraFlags",
    "isLocal",
    "enableTls",
    "certificate",
    "databaseUrl",
    "workers",
    "cacheSize",
    "targets",
];

const SERVICES: [&str; 16] = [
    "nginx",
    "postgresql",
    "redis",
    "grafana",
    "prometheus",
    "openssh",
    "fail2ban",
    "restic",
    "gitea",
    "matrix",
    "samba",
    "tailscale",
    "unbound",
    "dovecot",
    "postfix",
    "jellyfin",
];
const ATTRIBUTES: [&str; 16] = [
    "enable",
    "package",
    "user",
    "group",
    "dataDir",
    "openFirewall",
    "listenAddress",
    "logLevel",
    "extraConfig",
    "settings",
    "maxConnections",
    "timeout",
    "secretFile",
    "domain",
    "workers",
    "retention",
];
const PACKAGES: [&str; 12] = ["git", "vim", "curl", "jq", "htop", "ripgrep", "tmux", "rsync", "wget", "gdb", "strace", "tcpdump"];
const TYPES: [&str; 6] = ["str", "int", "bool", "path", "port", "lines"];

pub struct Sections {
    rng: Rng,
    /// How many sections there are already: what is set is called by it, so that nothing is set twice.
    number: usize,
}

impl Sections {
    pub fn new(seed: u64) -> Self {
        Sections { rng: Rng::new(seed), number: 0 }
    }

    /// The next section, and whether it stands in the options.
    pub fn next(&mut self) -> (Vec<Tree>, bool) {
        let drawn = self.rng.below(100);
        let section = match drawn {
            0..20 => vec![self.option()],
            20..45 => self.service(),
            45..60 => vec![self.unit()],
            60..68 => vec![self.account()],
            68..78 => vec![self.host()],
            78..86 => vec![self.packages()],
            86..91 => vec![self.overlay()],
            91..96 => vec![self.helper()],
            _ => vec![self.network()],
        };
        (section, drawn < 20)
    }

    /// Another name, which nothing has yet.
    fn fresh(&mut self) -> String {
        self.number += 1;
        format!("{}{}", self.rng.pick(&SERVICES), self.number)
    }

    fn defined(&mut self) -> Tree {
        id(self.rng.pick(&DEFINED))
    }

    fn of_cfg(&mut self) -> Tree {
        select("cfg", &[self.rng.pick(&ATTRIBUTES)])
    }

    /// A value of one node.
    fn short_value(&mut self) -> Tree {
        match self.rng.below(4) {
            0 => id(self.rng.pick(&["true", "true", "false", "null"])),
            1 => integer(&self.rng.between(1, 9_000).to_string()),
            _ => self.defined(),
        }
    }

    fn value(&mut self) -> Tree {
        match self.rng.below(10) {
            0..4 => self.short_value(),
            4 | 5 => string(self.rng.pick(&["127.0.0.1", "info", "/var/lib/app", "30d", "0 3 * * *"])),
            6 => self.of_cfg(),
            7 => interpolated("/var/lib/", self.defined(), "/data"),
            8 => apply(id("mkDefault"), vec![self.short_value()]),
            _ => list((0..self.rng.between(1, 4)).map(|_| self.short_value()).collect()),
        }
    }

    /// A single setting of `SETTING` nodes.
    pub fn setting(&mut self) -> Tree {
        let name = self.fresh();
        entry(&["programs", &name, "enable"], self.short_value())
    }

    /// Settings of one service, under one path.
    fn service(&mut self) -> Vec<Tree> {
        let (name, from) = (self.fresh(), self.rng.below(ATTRIBUTES.len()));
        let attributes = ATTRIBUTES.iter().cycle().skip(from).take(self.rng.between(2, 6));
        attributes.map(|attribute| entry(&["services", &name, attribute], self.value())).collect()
    }

    fn option(&mut self) -> Tree {
        let name = self.fresh();
        let mut entries = vec![entry(&["type"], select("types", &[self.rng.pick(&TYPES)])), entry(&["default"], self.value())];
        if self.rng.chance(50) {
            entries.push(entry(&["example"], apply(id("literalExpression"), vec![string("pkgs.hello")])));
        }
        entries.push(entry(&["description"], string("What the service is told when it starts.")));
        entry(&[&name], apply(id("mkOption"), vec![set(entries)]))
    }

    fn unit(&mut self) -> Tree {
        let name = self.fresh();
        let start = Tree::full(
            sheet::kind::STR,
            vec![
                hole(apply(id("getExe"), vec![id("package")])),
                literal(" --port "),
                hole(apply(id("toString"), vec![self.of_cfg()])),
                literal(" --data "),
                hole(self.defined()),
            ],
        );
        let config = vec![
            entry(&["ExecStart"], start),
            entry(&["User"], id("user")),
            entry(&["Restart"], string("on-failure")),
            entry(&["StateDirectory"], apply(id("baseNameOf"), vec![id("stateDir")])),
        ];
        let unit = set(vec![
            entry(&["description"], interpolated("The service ", id("domain"), "")),
            entry(&["wantedBy"], list(vec![string("multi-user.target")])),
            entry(&["after"], list(vec![string("network.target"), string("postgresql.service")])),
            inherit(&["environment"]),
            entry(&["serviceConfig"], set(config)),
        ]);
        entry(&["systemd", "services", &name], unit)
    }

    fn account(&mut self) -> Tree {
        let name = self.fresh();
        let groups = list(vec![string("wheel"), id("group")]);
        let account = set(vec![
            inherit(&["group"]),
            inherit_from(id("cfg"), &["home", "shell"]),
            entry(&["isSystemUser"], id("true")),
            entry(&["extraGroups"], groups),
            entry(&["openssh", "authorizedKeys", "keyFiles"], list(vec![path("./keys/admin.pub")])),
        ]);
        entry(&["users", "users", &name], account)
    }

    fn host(&mut self) -> Tree {
        let name = self.fresh();
        let proxy = interpolated("http://127.0.0.1:", apply(id("toString"), vec![id("port")]), "/");
        let host = set(vec![
            entry(&["forceSSL"], id("enableTls")),
            entry(&["sslCertificate"], select("certificate", &["path"])),
            keyed(&["locations"], string("/"), set(vec![entry(&["proxyPass"], proxy)])),
            keyed(&["locations"], string("/metrics"), apply(id("mkIf"), vec![id("isLocal"), set(vec![entry(&["root"], id("stateDir"))])])),
        ]);
        keyed(&["services", "nginx", "virtualHosts"], interpolated(&format!("{name}."), id("domain"), ""), host)
    }

    fn packages(&mut self) -> Tree {
        let name = self.fresh();
        let mut some = |least: usize| {
            let from = self.rng.below(PACKAGES.len());
            list(PACKAGES.iter().cycle().skip(from).take(self.rng.between(least, 8)).map(|text| id(text)).collect())
        };
        let (always, more) = (some(4), some(2));
        let more = apply(id("optionals"), vec![self.of_cfg(), more]);
        entry(&["environments", &name, "systemPackages"], with(id("pkgs"), binary(CONCAT, always, more)))
    }

    fn overlay(&mut self) -> Tree {
        let name = self.fresh();
        let patches = binary(CONCAT, select_or("old", &["patches"], list(Vec::new())), list(vec![path("./fix.patch")]));
        let attributes = set(vec![entry(&["patches"], patches), entry(&["version"], interpolated("", select("old", &["version"]), "-1"))]);
        let changed = apply(select("prev", &[&name, "overrideAttrs"]), vec![paren(lambda("old", attributes))]);
        let overlay = lambda("final", lambda("prev", set(vec![entry(&[&name], changed)])));
        entry(&["overlays", &name], overlay)
    }

    fn helper(&mut self) -> Tree {
        let name = self.fresh();
        let fields = [("name", None), ("after", Some(list(Vec::new()))), ("wantedBy", Some(id("targets"))), ("script", None)];
        let result = set(vec![
            inherit(&["after", "wantedBy"]),
            entry(&["description"], interpolated("A unit for ", id("name"), "")),
            entry(&["serviceConfig", "ExecStart"], apply(id("writeShellScript"), vec![id("name"), id("script")])),
            entry(&["enable"], binary(AND, self.of_cfg(), not(id("isLocal")))),
        ]);
        entry(&["helpers", &name], function(None, &fields, result))
    }

    fn network(&mut self) -> Tree {
        let name = self.fresh();
        let entries = vec![
            inherit_from(select("config", &["networking"]), &["hostName", "interfaces"]),
            entry(&["address"], interpolated("10.0.0.", apply(id("toString"), vec![id("workers")]), "/24")),
            entry(&["main"], if_else(binary(EQUAL, id("hostName"), string("gate")), id("interfaces"), list(Vec::new()))),
        ];
        let body =
            set(vec![inherit(&["address"]), entry(&["routes"], id("main")), entry(&["hosts"], list(vec![id("hostName"), id("domain")]))]);
        entry(&["networking", "nets", &name], let_in(entries, body))
    }

    /// The definitions of the let, in the order of their names' list. Some use others.
    pub fn definitions(&mut self) -> Vec<Tree> {
        let flag = Tree::full(sheet::kind::STR, vec![literal("--"), hole(id("name")), literal("="), hole(id("value"))]);
        let unit = function(None, &[("name", None), ("after", Some(id("targets")))], set(vec![inherit(&["name", "after"])]));
        let host = lambda("host", set(vec![entry(&["serverName"], id("host")), entry(&["root"], id("stateDir"))]));
        let special = [
            ("stateDir", interpolated("/var/lib/", id("user"), "")),
            ("package", select_or("cfg", &["package"], select("pkgs", &["hello"]))),
            ("settings", binary(UPDATE, id("defaults"), select("cfg", &["settings"]))),
            ("defaults", set(vec![entry(&["log", "level"], string("info")), entry(&["log", "format"], string("json"))])),
            ("environment", apply(id("mapAttrs"), vec![id("toFlag"), id("settings")])),
            ("toFlag", lambda("name", lambda("value", flag))),
            ("mkUnit", unit),
            ("mkHost", host),
            ("isLocal", binary(EQUAL, id("domain"), string("localhost"))),
            ("targets", list(vec![string("multi-user.target")])),
        ];
        let of = |text: &str| special.iter().find(|(of, _)| *of == text).map(|(_, value)| value.clone());
        DEFINED.iter().map(|text| entry(&[text], of(text).unwrap_or_else(|| self.of_cfg()))).collect()
    }
}
