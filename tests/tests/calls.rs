//! The soundness check hashes each resident's block at a single place: this reads the sources and follows the calls.
mod sources;

use sources::{split, texts, Item, Mention, Sources, Texts};
use std::collections::BTreeMap;

const CHECK: &str = "soundness::sound";
const HASH: &str = "fnv::hash";
const HASH_CRATE: &str = "fnv::";
/// The start and the prime of FNV-1a.
const HASH_NUMBERS: [&str; 2] = ["2166136261", "16777619"];
/// The loops on the way to it: along the buckets, and along the entries that one lists.
const LOOPS: usize = 2;
const SEARCH: &str = "check_lists::no_second_resident";

/// What is wrong with the way the check hashes.
#[derive(Clone, Debug, PartialEq, Eq)]
enum Fault {
    /// A text that is not understood.
    Unread(String),
    /// A function, and its call that leads nowhere.
    Lost(String, String),
    /// The functions that search for a second resident, if it isn't the one that should.
    Searches(Vec<String>),
    /// A function that hashes, the search or one below it.
    HashedInTheSearch(String),
    /// A function, and another one of the hash's crate that it calls.
    OtherOfTheCrate(String, String),
    /// The functions that hash, each as often as it does, if that isn't one place.
    Places(Vec<String>),
    /// The ways that lead there, if that isn't one.
    Ways(u64),
    /// A function that comes back to itself.
    Recursion(String),
    /// The functions with a loop on the way there, each as often as it has one, if there are more or fewer.
    Loops(Vec<String>),
    /// A function outside the crate that has a number of the hash: it may be written out there.
    WrittenOut(String),
    /// The functions that search, each as often as they do, if it isn't the one that hashes, once.
    SearchedFrom(Vec<String>),
    /// How many `let`s have the hash in them, if that isn't one with one name.
    Bindings(usize),
    /// The bucket's name is bound more than once, or can be given another value.
    Rebound(String),
    /// The bucket is not used where the resident is listed, or to search.
    NotCompared(String),
    NotSearched(String),
}

/// What each item mentions that is reached from a first one.
type Reached = BTreeMap<String, Vec<Mention>>;

fn reached(sources: &Sources, first: &str) -> Result<Reached, Fault> {
    let (mut reached, mut next) = (Reached::new(), vec![first.to_string()]);
    while let Some(path) = next.pop() {
        if reached.contains_key(&path) {
            continue;
        }
        let item = sources.items.get(&path).ok_or(Fault::Unread(format!("no {path}")))?;
        let (mentions, lost) = sources.mentions(item);
        if let Some(lost) = lost.into_iter().next() {
            return Err(Fault::Lost(path, lost));
        }
        next.extend(mentions.iter().map(|mention| mention.path.clone()));
        reached.insert(path, mentions);
    }
    Ok(reached)
}

/// The items that mention one, each as often as it does.
fn places(reached: &Reached, wanted: &str) -> Vec<String> {
    let times = |mentions: &[Mention]| mentions.iter().filter(|mention| mention.path == wanted).count();
    reached.iter().flat_map(|(path, mentions)| vec![path.clone(); times(mentions)]).collect()
}

/// In how many ways calls lead from an item to the hash; `known` has those of the items that were counted.
fn ways(reached: &Reached, from: &str, known: &mut BTreeMap<String, Option<u64>>) -> Result<u64, Fault> {
    match known.get(from) {
        Some(Some(counted)) => return Ok(*counted),
        Some(None) => return Err(Fault::Recursion(from.into())),
        None => known.insert(from.into(), None),
    };
    let mut sum = u64::from(from == HASH);
    for mention in &reached[from] {
        sum += ways(reached, &mention.path, known)?;
    }
    known.insert(from.into(), Some(sum));
    Ok(sum)
}

/// The one function with a loop over blocks along a list of synonyms.
fn search(sources: &Sources, reached: &Reached) -> Result<(), Fault> {
    let searches = |path: &str| {
        let mentions = |wanted: &str| reached[path].iter().any(|mention| mention.path == wanted);
        sources.items[path].loops() > 0 && mentions("layout::BLOCK") && mentions("layout::NEXT_SYNONYM")
    };
    let found: Vec<String> = reached.keys().filter(|path| searches(path)).cloned().collect();
    if found != [SEARCH] {
        return Err(Fault::Searches(found));
    }
    Ok(())
}

/// One way leads to the hash, with the two loops that go along buckets and entries and no other: once for each entry.
fn once_for_an_entry(sources: &Sources, all: &Reached, place: &str) -> Result<(), Fault> {
    let mut known = BTreeMap::new();
    let counted = ways(all, CHECK, &mut known)?;
    if counted != 1 {
        return Err(Fault::Ways(counted));
    }
    let leads_there = |path: &&String| known[*path] != Some(0) && !path.starts_with(HASH_CRATE);
    let on_the_way = all.keys().filter(leads_there);
    let loops: Vec<String> = on_the_way.flat_map(|path| vec![path.clone(); sources.items[path].loops()]).collect();
    if loops.len() != LOOPS {
        return Err(Fault::Loops(loops));
    }
    let searched = places(all, SEARCH);
    if searched != [place] {
        return Err(Fault::SearchedFrom(searched));
    }
    Ok(())
}

/// The function that hashes binds the bucket once, compares it, and gives it to the search.
fn bucket_kept(item: &Item, mentions: &[Mention]) -> Result<(), Fault> {
    let at = |path: &str| mentions.iter().find(|mention| mention.path == path).map(|mention| mention.at);
    let hashed = at(HASH).expect("it hashes");
    let mut lets = item.lets();
    lets.retain(|one| one.from < hashed && hashed < one.to);
    let [bound] = &lets[..] else { return Err(Fault::Bindings(lets.len())) };
    let [name] = &bound.names[..] else { return Err(Fault::Bindings(bound.names.len())) };
    if item.times_bound(name) != 1 || bound.mutable {
        return Err(Fault::Rebound(name.clone()));
    }
    let behind = &item.body[bound.to..];
    let compares = |pair: &[String]| {
        let sign = |token: &String| token == "==" || token == "!=";
        (pair[0] == *name && sign(&pair[1])) || (sign(&pair[0]) && pair[1] == *name)
    };
    if !behind.windows(2).any(compares) {
        return Err(Fault::NotCompared(name.clone()));
    }
    let given = at(SEARCH).filter(|&at| at > bound.to).map(|at| arguments(&item.body[at..])).unwrap_or_default();
    if !given.iter().any(|argument| argument[..] == [name.clone()]) {
        return Err(Fault::NotSearched(name.clone()));
    }
    Ok(())
}

/// The arguments of the call that tokens start with.
fn arguments(call: &[String]) -> Vec<&[String]> {
    let inside = call.iter().position(|token| token == "(").map_or(&call[..0], |open| &call[open + 1..]);
    let mut depth = 0;
    let ends = |token: &String| {
        depth += i32::from(token == "(") - i32::from(token == ")");
        depth < 0
    };
    split(&inside[..inside.iter().position(ends).unwrap_or(0)])
}

/// The check hashes at one place, to which one way leads; not in the search; and what it has hashed, it keeps.
fn judgement(texts: &Texts) -> Result<(), Fault> {
    let sources = Sources::read(texts).map_err(Fault::Unread)?;
    let all = reached(&sources, CHECK)?;
    search(&sources, &all)?;
    if let Some(path) = places(&reached(&sources, SEARCH)?, HASH).into_iter().next() {
        return Err(Fault::HashedInTheSearch(path));
    }
    for (path, mentions) in all.iter().filter(|(path, _)| !path.starts_with(HASH_CRATE)) {
        let other = mentions.iter().find(|mention| mention.path.starts_with(HASH_CRATE) && mention.path != HASH);
        if let Some(other) = other {
            return Err(Fault::OtherOfTheCrate(path.clone(), other.path.clone()));
        }
        if sources.items[path].body.iter().any(|token| HASH_NUMBERS.contains(&token.replace('_', "").as_str())) {
            return Err(Fault::WrittenOut(path.clone()));
        }
    }
    let hashing = places(&all, HASH);
    let [place] = &hashing[..] else { return Err(Fault::Places(hashing)) };
    once_for_an_entry(&sources, &all, place)?;
    bucket_kept(&sources.items[place], &all[place])
}

#[test]
fn the_check_hashes_at_one_place() {
    let texts = texts();
    assert_eq!(judgement(&texts), Ok(()));
    // hashing is seen where it is: a lookup hashes too
    let sources = Sources::read(&texts).unwrap();
    let everywhere = sources.items.iter().map(|(path, item)| (path.clone(), sources.mentions(item).0)).collect();
    let (all, of_the_check) = (places(&everywhere, HASH), places(&reached(&sources, CHECK).unwrap(), HASH));
    assert_eq!(of_the_check, ["check_lists::list_test"]);
    assert!(all.len() > 1 && all.iter().any(|path| path.starts_with("directory::")), "{all:?}");
}

/// A crate, a text that stands in it once, and what takes its place.
type Edit = (&'static str, &'static str, String);

const HERE: &str = "check_lists::list_test";
const LISTS: &str = "check_lists";
const USES: &str = "ghost use Rattle.layout.specs.Addresses.{COUNT};\n";
const BOUND: &str = "    let own = fnv::hash(block) & (buckets.many - 1);\n";
const COMPARED: &str = "    if own != b {\n";
const SEARCHED: &str = "    no_second_resident(d, entries, buckets, own, block, ahead)\n";
const TEST: &str = "!list_test(d, entries, n, buckets, b, ahead, e)";
const WORDS_VALUE: &str = "// The value of the word at i";

fn instead(name: &'static str, text: &'static str, other: &str) -> Edit {
    (name, text, other.into())
}

fn before(name: &'static str, text: &'static str, added: &str) -> Edit {
    (name, text, format!("{added}{text}"))
}

/// A second hash where the first is compared.
fn compared_with(second: &str) -> Edit {
    instead(LISTS, COMPARED, &format!("    if own != b || {second} & (buckets.many - 1) != b {{\n"))
}

/// Asserts the judgement of the altered sources.
fn altered(name: &str, edits: &[Edit], expected: Result<(), Fault>) {
    let mut texts = texts();
    for (of, text, other) in edits {
        let source = texts.get_mut(*of).unwrap();
        assert_eq!(source.matches(text).count(), 1, "{name}: {text} in {of}");
        *source = source.replace(text, other);
    }
    assert_eq!(judgement(&texts), expected, "{name}");
}

fn wrong(name: &str, edits: &[Edit], fault: Fault) {
    altered(name, edits, Err(fault));
}

/// A second place beside the one that is there.
fn second(name: &str, edits: &[Edit], place: &str) {
    let mut places = vec![HERE.to_string(), place.into()];
    places.sort();
    wrong(name, edits, Fault::Places(places));
}

#[test]
fn a_second_hash_is_noticed() {
    let imported = |import: &str, call: &str| [before(LISTS, USES, import), compared_with(call)];
    second("a second call", &[compared_with("fnv::hash(block)")], HERE);
    second("imported", &imported("use fnv::hash;\n", "hash(block)"), HERE);
    second("imported by another name", &imported("use fnv::hash as mix;\n", "mix(block)"), HERE);
    second("imported in a group", &imported("use fnv::{wrapping_mul, hash as mix};\n", "mix(block)"), HERE);
    second("the crate by another name", &imported("use fnv as f;\n", "f::hash(block)"), HERE);
    second("a line break", &[compared_with("fnv::hash\n        (block)")], HERE);
    second("more line breaks", &[compared_with("fnv\n        :: // of the block\n        hash (block)")], HERE);
    let with_h = SEARCHED.replace("ahead", "ahead - h(block) % 1");
    let bound = [before(LISTS, COMPARED, "    let h = fnv::hash;\n"), instead(LISTS, SEARCHED, &with_h)];
    second("bound, not called", &bound, HERE);
    let applied = "fn applied(f: fn(u32) -> u32, x: u32) -> u32 {\n    f(x)\n}\n\n";
    let given = [before(LISTS, "// None of the first", applied), compared_with("applied(fnv::hash, block)")];
    second("given to another function", &given, HERE);
    let with_hash = SEARCHED.replace("ahead", "ahead - hash(block) % 1");
    let hash = [before(LISTS, USES, "use fnv::hash;\n"), instead(LISTS, SEARCHED, &with_hash)];
    second("bound to its own name", &[&hash[..], &[before(LISTS, COMPARED, "    let hash = hash;\n")]].concat(), HERE);
}

#[test]
fn a_second_hash_behind_a_call_is_noticed() {
    let call = compared_with("words::mix(block)");
    let helper = "pub fn mix(x: u32) -> u32\n    ensures { result ≡ fnv x }\n{\n    fnv::hash(x)\n}\n\n";
    second("a helper of another crate", &[before("words", WORDS_VALUE, helper), call.clone()], "words::mix");
    let given_on = "pub use fnv::hash as mix;\n\n";
    second("given on by another crate", &[before("words", WORDS_VALUE, given_on), call.clone()], HERE);
    let constant = "const MIX: fn(u32) -> u32 = fnv::hash;\n\n";
    let by_constant = [before(LISTS, USES, constant), compared_with("MIX(block)")];
    second("a constant", &by_constant, "check_lists::MIX");
    let method = "    pub fn mixed(self) -> u32 {\n        fnv::hash(self.n)\n    }\n\n";
    let calls_it = "        many: settings::buckets(legal.of.n) + legal.of.mixed() % 1,\n";
    let by_method = [
        before("settings", "    pub fn unix(", method),
        instead("soundness", "        many: settings::buckets(legal.of.n),\n", calls_it),
    ];
    second("a method", &by_method, "settings::Settings::mixed");
    let twice = instead(LISTS, TEST, &format!("{TEST} || {TEST}"));
    wrong("called twice", &[twice.clone()], Fault::Ways(2));
    let buckets = "        let Some(rest) = bucket(d, entries, n, buckets, b, left) else {\n            return false;\n        };\n";
    let both = [twice, instead(LISTS, buckets, &buckets.repeat(2))];
    wrong("called twice by one that is", &both, Fault::Ways(4));
}

/// More than once for each entry that a bucket lists.
#[test]
fn a_hash_in_another_loop_is_noticed() {
    let loops = |added: &str| {
        let mut loops = ["check_lists::bucket", "check_lists::buckets_ok", added].map(String::from);
        loops.sort();
        Fault::Loops(loops.into())
    };
    let in_a_loop = instead(LISTS, TEST, &format!("{{ while {TEST} {{}} false }}"));
    wrong("called in a loop", &[in_a_loop], loops("check_lists::bucket"));
    wrong("hashed in a loop", &[before(LISTS, BOUND, "    while block > n {}\n")], loops(HERE));
}

#[test]
fn a_hash_in_the_search_is_noticed() {
    let compared = "        if check_stack::field(entries, layout::BLOCK, e) == block {\n";
    let in_loop = instead(LISTS, compared, &compared.replace("block {", "block + fnv::hash(e) % 1 {"));
    wrong("in the loop", &[in_loop], Fault::HashedInTheSearch(SEARCH.into()));
    let below = instead("check_stack", "entries[i] % words::VALUES", "entries[i] % words::VALUES + fnv::hash(e) % 1");
    wrong("below the search", &[below], Fault::HashedInTheSearch("check_stack::field".into()));
    // another search beside the one that is there, or none
    let field = "check_stack::field(entries, layout::NEXT_SYNONYM, e)";
    let twin = format!("fn twin(entries: &[u32], e: u32) {{\n    while {field} > layout::BLOCK {{}}\n}}\n\n");
    let two = [before(LISTS, "// Entry e, listed in", &twin), before(LISTS, SEARCHED, "    twin(entries, e);\n")];
    wrong("two searches", &two, Fault::Searches(vec![SEARCH.into(), "check_lists::twin".into()]));
    wrong("no search", &[instead(LISTS, SEARCHED, "    true\n")], Fault::Searches(vec![]));
}

#[test]
fn a_bucket_that_is_not_kept_is_noticed() {
    let name = || "own".to_string();
    let by_b = SEARCHED.replace("own", "b");
    wrong("the search takes another bucket", &[instead(LISTS, SEARCHED, &by_b)], Fault::NotSearched(name()));
    let in_the_condition = [
        instead(LISTS, BOUND, ""),
        instead(LISTS, COMPARED, "    if fnv::hash(block) & (buckets.many - 1) != b {\n"),
        instead(LISTS, SEARCHED, &by_b),
    ];
    wrong("no bucket is bound", &in_the_condition, Fault::Bindings(0));
    wrong("not compared", &[instead(LISTS, COMPARED, "    if own > b {\n")], Fault::NotCompared(name()));
    wrong("bound anew", &[before(LISTS, SEARCHED, "    let own = b;\n")], Fault::Rebound(name()));
    wrong("can change", &[instead(LISTS, BOUND, &BOUND.replace("own", "mut own"))], Fault::Rebound(name()));
    let again = before(LISTS, SEARCHED, "    no_second_resident(d, entries, buckets, b, block, ahead);\n");
    wrong("searched twice", &[again], Fault::SearchedFrom(vec![HERE.into(), HERE.into()]));
    let walk = "        if !list_test(";
    let from_the_walk = before(LISTS, walk, "        no_second_resident(d, entries, buckets, n, e, ahead);\n");
    let from = vec!["check_lists::bucket".to_string(), HERE.into()];
    wrong("searched from elsewhere", &[from_the_walk], Fault::SearchedFrom(from));
    let step = "    let more = (block + 2166136261) * 16_777_619;\n";
    wrong("written out", &[before(LISTS, BOUND, step)], Fault::WrittenOut(HERE.into()));
    let other = instead(LISTS, BOUND, "    let own = fnv::wrapping_mul(block, n) & (buckets.many - 1);\n");
    wrong("another function", &[other], Fault::OtherOfTheCrate(HERE.into(), "fnv::wrapping_mul".into()));
}

/// What is not read is not passed over.
#[test]
fn what_leads_nowhere_is_named() {
    let lost = Fault::Lost(HERE.into(), "words::mix".into());
    wrong("no such function", &[compared_with("words::mix(block)")], lost);
    let to_itself = [before("words", WORDS_VALUE, "pub fn mix(x: u32) -> u32 {\n    mix(x)\n}\n\n")];
    let recursion = Fault::Recursion("words::mix".into());
    wrong("a recursion", &[&to_itself[..], &[compared_with("words::mix(block)")]].concat(), recursion);
    let all = Fault::Unread("check_lists: cannot read use fnv::*".into());
    wrong("all of a crate", &[before(LISTS, USES, "use fnv::*;\n")], all);
    let module = Fault::Unread("words: cannot read mod other".into());
    wrong("a module", &[before("words", WORDS_VALUE, "mod other;\n")], module);
}

#[test]
fn what_is_no_second_hash_is_passed() {
    altered("in a comment", &[before(LISTS, COMPARED, "    // fnv::hash(block) was bound\n")], Ok(()));
    let contract = "{ fnv::hash(block) ≡ record { x = fnv block } × result ≡ list_test (";
    altered("in a contract", &[instead(LISTS, "{ result ≡ list_test (", contract)], Ok(()));
    let unreached = before("words", WORDS_VALUE, "pub fn mix(x: u32) -> u32 {\n    fnv::hash(x)\n}\n\n");
    altered("in a function that is not reached", &[unreached], Ok(()));
    let local = "    let hash = own;\n    let r = Pair { hash: hash };\n";
    let named = [before(LISTS, USES, "use fnv::hash;\n"), before(LISTS, SEARCHED, local)];
    altered("a local and a field of that name", &named, Ok(()));
}
