//! The functions of the sources and what they mention: a small reader of .rt texts. What it can't read, it names.
use cache_tests::tree::{files, root};
use std::collections::{BTreeMap, BTreeSet};
use std::fs;
use std::path::PathBuf;

/// The text of each crate.
pub type Texts = BTreeMap<String, String>;

const SIGNS: [&str; 9] = ["..=", "..", "::", "->", "=>", "==", "!=", "<=", ">="];
const KEYWORDS: [&str; 16] = [
    "as", "break", "continue", "else", "false", "for", "if", "in", "let", "loop", "match", "mut", "ref", "return",
    "true", "while",
];
const PRIMITIVES: [&str; 13] =
    ["bool", "char", "i16", "i32", "i64", "i8", "isize", "str", "u16", "u32", "u64", "u8", "usize"];

/// Constructors that no source declares.
const CONSTRUCTORS: [&str; 3] = ["Err", "Ok", "Some"];

/// All of `crates/*/src`.
pub fn texts() -> Texts {
    let text = |folder: PathBuf| {
        let name = folder.file_name().unwrap().to_str().unwrap().to_string();
        let mut code = files(&folder.join("src"));
        code.retain(|path| path.extension().is_some_and(|end| end == "rt"));
        (name, code.into_iter().map(|path| fs::read_to_string(path).unwrap() + "\n").collect())
    };
    fs::read_dir(root().join("crates")).unwrap().map(|entry| text(entry.unwrap().path())).collect()
}

fn in_name(c: char) -> bool {
    c.is_alphanumeric() || c == '_'
}

/// How long the token is that a text starts with.
fn token_length(text: &str) -> usize {
    let first = text.chars().next().unwrap();
    if first == '"' {
        let mut escaped = true;
        let ends = |c: char| {
            let end = c == '"' && !escaped;
            escaped = c == '\\' && !escaped;
            end
        };
        return text.find(ends).map_or(text.len(), |end| end + 1);
    }
    // a character between single quotes may be a brace
    if first == '\'' && text.chars().nth(2) == Some('\'') {
        return text.chars().take(3).map(char::len_utf8).sum();
    }
    if in_name(first) {
        return text.find(|c| !in_name(c)).unwrap_or(text.len());
    }
    SIGNS.iter().find(|sign| text.starts_with(**sign)).map_or(first.len_utf8(), |sign| sign.len())
}

/// The tokens of a text without its comments.
fn tokens(text: &str) -> Vec<String> {
    let (mut tokens, mut rest) = (vec![], text.trim_start());
    while !rest.is_empty() {
        if rest.starts_with("//") {
            rest = rest.split_once('\n').map_or("", |(_, behind)| behind).trim_start();
            continue;
        }
        let (token, behind) = rest.split_at(token_length(rest));
        tokens.push(token.to_string());
        rest = behind.trim_start();
    }
    tokens
}

/// How many tokens there are up to the bracket that closes the first `open`, that bracket among them.
fn through(tokens: &[String], open: &str, close: &str) -> Result<usize, String> {
    let mut depth = 0;
    for (i, token) in tokens.iter().enumerate() {
        depth += i32::from(token == open) - i32::from(token == close);
        if token == close && depth == 0 {
            return Ok(i + 1);
        }
    }
    Err(format!("no {close} closes {open}"))
}

/// By how much a token changes the depth in brackets.
fn nesting(token: &str) -> i32 {
    i32::from(["(", "[", "{"].contains(&token)) - i32::from([")", "]", "}"].contains(&token))
}

/// How many tokens there are in front of a sign that stands in no bracket.
fn until(tokens: &[String], sign: &str) -> Result<usize, String> {
    let mut depth = 0;
    for (i, token) in tokens.iter().enumerate() {
        if depth == 0 && token == sign {
            return Ok(i);
        }
        depth += nesting(token);
        if depth < 0 {
            break;
        }
    }
    Err(format!("no {sign} behind {}", tokens[0]))
}

/// What stands between the commas that are in no bracket.
pub fn split(tokens: &[String]) -> Vec<&[String]> {
    let (mut parts, mut rest) = (vec![], tokens);
    while !rest.is_empty() {
        let length = until(rest, ",").unwrap_or(rest.len());
        parts.push(&rest[..length]);
        rest = rest.get(length + 1..).unwrap_or(&[]);
    }
    parts.retain(|part| !part.is_empty());
    parts
}

/// The names of a path.
fn names(path: &[String]) -> Vec<String> {
    path.iter().filter(|token| *token != "::").cloned().collect()
}

/// How many tokens the path takes that the tokens start with; 0 where they start with none.
fn path_length(tokens: &[String]) -> usize {
    let name = |i: usize| {
        let first = tokens.get(i).and_then(|token| token.chars().next());
        first.is_some_and(|c| c.is_alphabetic() || c == '_') && !KEYWORDS.contains(&tokens[i].as_str())
    };
    let mut length = usize::from(name(0));
    while length > 0 && tokens.get(length).is_some_and(|token| token == "::") && name(length + 1) {
        length += 2;
    }
    length
}

/// How many tokens the parameters of types take that the tokens start with.
fn generics(tokens: &[String]) -> usize {
    let mut depth = 0;
    let inside = |token: &&String| {
        let before = depth;
        depth += i32::from(*token == "<") - i32::from(*token == ">");
        before + depth > 0
    };
    tokens.iter().take_while(inside).count()
}

/// The type that the head of an impl is of: behind `for`, if there is one.
fn implementor(head: &[String]) -> &[String] {
    let of = head.iter().position(|token| token == "for").map_or(generics(head), |at| at + 1);
    &head[of..of + 1]
}

/// A function, or a constant, which may hold one.
pub struct Item {
    /// Its crate, and the type in whose block it stands.
    scope: Vec<String>,
    parameters: Vec<String>,
    pub body: Vec<String>,
}

/// A `let`: the names that it binds, and where it, what is behind these names, and its semicolon stand in the body.
pub struct Let {
    pub names: Vec<String>,
    pub mutable: bool,
    pub from: usize,
    behind: usize,
    pub to: usize,
}

/// A mention of an item, and where it starts in the body.
pub struct Mention {
    pub path: String,
    pub at: usize,
}

impl Item {
    /// How many loops it has.
    pub fn loops(&self) -> usize {
        self.body.iter().filter(|token| ["while", "for", "loop"].contains(&token.as_str())).count()
    }

    pub fn lets(&self) -> Vec<Let> {
        let at = (0..self.body.len()).filter(|&i| self.body[i] == "let");
        at.filter_map(|from| self.let_at(from)).collect()
    }

    fn let_at(&self, from: usize) -> Option<Let> {
        let statement = &self.body[from..];
        let to = from + until(statement, ";").ok()?;
        let end = [":", "="].iter().filter_map(|sign| until(statement, sign).ok()).min()?;
        let pattern = &statement[1..end];
        let bound = |i: &usize| {
            let behind = pattern.get(i + 1).map_or("", String::as_str);
            path_length(&pattern[*i..]) == 1 && behind != "(" && (*i == 0 || pattern[i - 1] != "::")
        };
        let names = (0..pattern.len()).filter(bound).map(|i| pattern[i].clone()).collect();
        Some(Let { names, mutable: pattern.iter().any(|token| token == "mut"), from, behind: from + end, to })
    }

    /// How often a name is bound: as a parameter and by `let`.
    pub fn times_bound(&self, name: &str) -> usize {
        let by_let = self.lets().iter().filter(|one| one.names.iter().any(|bound| bound == name)).count();
        by_let + self.parameters.iter().filter(|parameter| *parameter == name).count()
    }

    /// Whether a name is a local at a place of the body: a parameter, or bound there, or in front in a block around it.
    fn is_local(&self, name: &str, at: usize) -> bool {
        let reaches = |one: &Let| {
            let mut depth = 0;
            let mut inside = |token: &String| {
                depth += nesting(token);
                depth >= 0
            };
            (one.from < at && at < one.behind) || (one.to < at && self.body[one.to..at].iter().all(&mut inside))
        };
        self.parameters.iter().any(|parameter| parameter == name)
            || self.lets().iter().any(|one| one.names.iter().any(|bound| bound == name) && reaches(one))
    }
}

/// What a path leads to.
enum Named {
    Item(String),
    /// A constructor, or a function of a primitive type.
    Other,
}

#[derive(Default)]
pub struct Sources {
    /// By their paths, the crate in front.
    pub items: BTreeMap<String, Item>,
    /// The path that a name of a crate was imported from.
    imports: BTreeMap<String, Vec<String>>,
    /// Structs, enums and their variants.
    made: BTreeSet<String>,
}

impl Sources {
    pub fn read(texts: &Texts) -> Result<Sources, String> {
        let mut sources = Sources::default();
        for (name, text) in texts {
            let scope = [name.clone()];
            sources.read_items(&scope, &tokens(text)).map_err(|what| format!("{name}: {what}"))?;
        }
        Ok(sources)
    }

    fn read_items(&mut self, scope: &[String], tokens: &[String]) -> Result<(), String> {
        let mut at = 0;
        while at < tokens.len() {
            let rest = &tokens[at..];
            let next = rest.get(1).map_or("", String::as_str);
            at += match rest[0].as_str() {
                "pub" | "extern" | "\"C\"" => 1,
                "const" if next == "fn" => 1,
                "#" => through(rest, "[", "]")?,
                // an import of statements, or what an impl says of its trait's contracts
                "ghost" => until(rest, ";")? + 1,
                "use" => {
                    let end = until(rest, ";")?;
                    self.import(&scope[0], &[], &rest[1..end])?;
                    end + 1
                }
                "const" => self.constant(scope, rest)?,
                "struct" | "enum" => self.declared(scope, rest)?,
                "impl" => {
                    let (open, length) = (until(rest, "{")?, through(rest, "{", "}")?);
                    self.read_items(&[scope, implementor(&rest[1..open])].concat(), &rest[open + 1..length - 1])?;
                    length
                }
                "fn" => self.function(scope, rest)?,
                other => return Err(format!("cannot read {other} {next}")),
            };
        }
        Ok(())
    }

    /// `a::b`, `a::b as c` or `a::{..}`, several between commas.
    fn import(&mut self, own: &String, front: &[String], trees: &[String]) -> Result<(), String> {
        for tree in split(trees) {
            if let Some(open) = tree.iter().position(|token| token == "{") {
                self.import(own, &[front, &names(&tree[..open])].concat(), &tree[open + 1..tree.len() - 1])?;
                continue;
            }
            if tree.iter().any(|token| token == "*") {
                return Err(format!("cannot read use {}", tree.concat()));
            }
            let (path, renamed) = match tree.iter().position(|token| token == "as") {
                Some(i) => (&tree[..i], tree.get(i + 1)),
                None => (tree, None),
            };
            let mut path = [front, &names(path)].concat();
            path.retain(|name| name != "self");
            if path.first().is_some_and(|first| first == "crate" || first == "super") {
                path[0] = own.clone();
            }
            let name = renamed.or(path.last()).ok_or("use of nothing")?;
            self.imports.insert(format!("{own}::{name}"), path.clone());
        }
        Ok(())
    }

    fn insert(&mut self, scope: &[String], name: &str, parameters: Vec<String>, body: &[String]) -> Result<(), String> {
        let item = Item { scope: scope.to_vec(), parameters, body: body.to_vec() };
        let path = format!("{}::{name}", scope.join("::"));
        self.items.insert(path, item).map_or(Ok(()), |_| Err(format!("{name} stands there twice")))
    }

    fn constant(&mut self, scope: &[String], rest: &[String]) -> Result<usize, String> {
        let (from, to) = (until(rest, "=")?, until(rest, ";")?);
        self.insert(scope, &rest[1], vec![], &rest[from + 1..to])?;
        Ok(to + 1)
    }

    fn declared(&mut self, scope: &[String], rest: &[String]) -> Result<usize, String> {
        let path = format!("{}::{}", scope.join("::"), rest[1]);
        let open = rest.iter().position(|token| ["{", "(", ";"].contains(&token.as_str()));
        let open = open.ok_or(format!("{path} does not end"))?;
        let length = if rest[open] == "{" { through(rest, "{", "}")? } else { until(rest, ";")? + 1 };
        if rest[0] == "enum" {
            let variants = split(&rest[open + 1..length - 1]);
            self.made.extend(variants.iter().map(|variant| format!("{path}::{}", variant[0])));
        }
        self.made.insert(path);
        Ok(length)
    }

    /// Signature, contracts, which are no code, and body.
    fn function(&mut self, scope: &[String], rest: &[String]) -> Result<usize, String> {
        let open = 2 + generics(&rest[2..]);
        let mut at = open + through(&rest[open..], "(", ")")?;
        let named = |part: &&[String]| part.iter().position(|token| token == ":").map(|colon| part[colon - 1].clone());
        let parameters = split(&rest[open + 1..at - 1]).iter().filter_map(named).collect();
        while rest.get(at).is_some_and(|token| token != "{") {
            let contract = ["requires", "ensures"].contains(&rest[at].as_str());
            at += if contract { through(&rest[at..], "{", "}")? } else { 1 };
        }
        let length = at + through(rest.get(at..).unwrap_or(&[]), "{", "}")?;
        self.insert(scope, &rest[1], parameters, &rest[at + 1..length - 1])?;
        Ok(length)
    }

    /// What a path with the crate in front leads to, also by way of imports.
    fn follow(&self, mut path: Vec<String>) -> Option<Named> {
        for _ in 0..9 {
            let joined = path.join("::");
            if self.items.contains_key(&joined) {
                return Some(Named::Item(joined));
            }
            if self.made.contains(&joined) {
                return Some(Named::Other);
            }
            let imported = self.imports.get(&path.get(..2)?.join("::"))?;
            path = [imported, &path[2..]].concat();
        }
        None
    }

    fn resolve(&self, item: &Item, path: &[String]) -> Option<Named> {
        let (path, own) = (names(path), &item.scope[..1]);
        match path[0].as_str() {
            "Self" => self.follow([&item.scope, &path[1..]].concat()),
            "crate" | "self" | "super" => self.follow([own, &path[1..]].concat()),
            first if path.len() > 1 && PRIMITIVES.contains(&first) => Some(Named::Other),
            first if path.len() == 1 && CONSTRUCTORS.contains(&first) => Some(Named::Other),
            _ => self.follow([own, &path].concat()).or_else(|| self.follow(path)),
        }
    }

    /// The functions of that name in any type's block.
    fn methods<'a>(&'a self, name: &'a str) -> impl Iterator<Item = &'a String> {
        let of_a_type = self.items.iter().filter(|(_, item)| item.scope.len() > 1);
        of_a_type.map(|(path, _)| path).filter(move |path| path.rsplit("::").next() == Some(name))
    }

    /// What an item mentions of the sources, called or not, in the order of its body; and the calls that lead nowhere.
    pub fn mentions(&self, item: &Item) -> (Vec<Mention>, Vec<String>) {
        let (mut found, mut lost, mut at) = (vec![], vec![], 0);
        while at < item.body.len() {
            let length = path_length(&item.body[at..]);
            let path = &item.body[at..at + length];
            let before = at.checked_sub(1).map_or("", |i| item.body[i].as_str());
            let behind = item.body.get(at + length).map_or("", String::as_str);
            let (called, local) = (behind == "(", length == 1 && item.is_local(&path[0], at));
            if length > 0 && before == "." {
                let methods = self.methods(&path[0]).filter(|_| called);
                found.extend(methods.map(|path| Mention { path: path.clone(), at }));
            } else if length > 0 && behind != ":" {
                // a colon is behind the name of a field
                match self.resolve(item, path) {
                    Some(Named::Item(path)) if !local => found.push(Mention { path, at }),
                    None if called && !local => lost.push(path.concat()),
                    _ => {}
                }
            }
            at += length.max(1);
        }
        (found, lost)
    }
}
