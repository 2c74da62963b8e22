#!/usr/bin/env python3
"""Tries tools/clauses.py on made-up pairs of texts: what it has to tell of each, and what not.

    python3 tools/clause_tries.py

The last line is `N tried, M wrong`; the status is 0 where M is 0, else 1.
"""
import re
import sys

import clauses

LIB = "crates/low/src/lib.rt"
CODE = "crates/low/src/table.rt"
PAGE = "crates/low/specs/Table.antt"
TEXTS = {
    LIB: """//! A table.
mod table;

pub use table::{LIMIT, Line, Slot, State, Table, find, law};
""",
    CODE: """ghost use Rattle.std.specs.Prelude.{◌≡◌, IfSome};
ghost use Rattle.low.specs.Table.{first, IsKept};

/// The most slots.
pub const LIMIT: usize = 64;

/// A state.
#[derive(Clone, Copy, Debug, PartialEq)]
pub enum State {
    #[error("empty")]
    Empty,
    Full(u32),
}

#[derive(Drop)]
pub struct Slot {
    pub key: u32,
    count: usize,
}

pub struct Table<T>(Vec<T>, pub u32);

impl<T: Clone> Model for Table<T> {
    ghost Value = { List T };

    ghost view = { λ t. t.0.items };
}

/// A line.
pub trait Line {
    ghost sent: { Self → List ℕ };

    /// Sends.
    fn send(&mut self, bytes: &[u8]) -> Result<(), u8>
        ensures sent { sent self.new ≡ sent self.old }
        ensures failed { IfSome result (λ fault. fault ≡ 3) };

    fn close(&mut self)
        ensures { sent self.new ≡ sent self.old }
    {
        drop(self, "{ not a brace");
    }
}

impl<T: Clone> Table<T> {
    /// Puts an item in.
    pub fn put(&mut self, item: T, at: usize) -> Option<T>
        requires within { at < 64 }
        ensures old { IfSome result (λ it. it ≡ first self.old at) }
        ensures* ends { IsKept self.entry result }
    {
        match self.0.get(at) { Some('{') => None, _ => helper(self) }
    }

    fn hidden(&self) -> usize
        ensures { result ≡ 0 }
    {
        0
    }
}

impl Line for Slot {
    ghost sent = { λ s. s.key };

    fn send(&mut self, bytes: &[u8]) -> Result<(), u8> { Ok(()) }
}

/// Finds.
pub fn find<'a, T: Clone>(items: &'a [T], key: u32) -> Option<&'a T>
    requires { key < 8 }
    ensures found { IfSome result (λ it. it ≡ first items key) }
    ensures none { result ≡ None → key ≡ 0 }
{
    for it in items { if true { return None; } }
    None
}

/// A law.
pub fn law()
    ensures { (n : ℕ) → IsKept n n }
{}

fn helper(n: u32) -> u32
    ensures { result ≡ n }
{
    n
}

#[cfg(test)]
mod tests {
    #[test]
    fn finds_nothing(rt: &HostRuntime) {}
}
""",
    PAGE: """-- The table.
use Rattle.std.specs.Prelude.{ℕ, Bool}

-- the first
abbrev pub first : List ℕ → ℕ → ℕ
first [] n = n
first (x ∷ xs) n = other x n

abbrev pub other : ℕ → ℕ → ℕ
other x n = x + n -- their sum

pub record IsKept (a b : ℕ) : Type 0 where
  pub same : a ≡ b

abbrev pub unused : ℕ
unused = 7
""",
    "crates/low/data/a.cases": "case one\nsays x\n",
    "crates/tool/src/main.rt": "fn main(words: &[u8]) -> u8\n    ensures { result ≡ 0 }\n{ 0 }\n",
}
# What is replaced (path, old, new), what has to be told at the head of some line, and the status.
TRIES = {
    "nothing": ([], [], 0),
    "comment changed only": ([(CODE, "/// Finds.", "/// Looks for it. ensures { false }")], [], 0),
    "comment between clauses": ([(CODE, "    ensures none", "    // where nothing is {\n    ensures none")], [], 0),
    "body changed only": ([(CODE, "    None\n}", "    find(items, 3)\n}")], [], 0),
    "private function changed": ([(CODE, "    ensures { result ≡ n }\n", "")], [], 0),
    "private method lost": ([(CODE, "    fn hidden(&self) -> usize\n        ensures { result ≡ 0 }\n    {\n        0\n    }\n", "")], [], 0),
    "dropped ensures": ([(CODE, "    ensures none { result ≡ None → key ≡ 0 }\n", "")], ["changed function low::find", "    - ensures none"], 1),
    "weaker ensures": ([(CODE, "result ≡ None → key ≡ 0", "result ≡ None → key ≡ key")], ["changed function low::find", "    + ensures none"], 1),
    "added requires": ([(CODE, "    requires { key < 8 }", "    requires { key < 8 }\n    requires more { key < 4 }")], ["changed function low::find", "    + requires more"], 1),
    "narrower requires": ([(CODE, "requires { key < 8 }", "requires { key < 4 }")], ["changed function low::find"], 1),
    "added ensures": ([(CODE, "    ensures none", "    ensures more { key ≡ key }\n    ensures none")], ["changed function low::find"], 1),
    "clauses in another order": ([(CODE, "    ensures none { result ≡ None → key ≡ 0 }\n", ""), (CODE, "    ensures found", "    ensures none { result ≡ None → key ≡ 0 }\n    ensures found")], [], 0),
    "renamed clause": ([(CODE, "ensures none", "ensures nothing")], ["changed function low::find"], 1),
    "clause over more lines": ([(CODE, "ensures found { IfSome result (λ it. it ≡ first items key) }", "ensures found {\n        IfSome result (λ it.\n            it ≡ first items key)\n    }")], [], 0),
    "signature over more lines": ([(CODE, "(items: &'a [T], key: u32)", "(\n    items: &'a [T],\n    key: u32,\n)")], [], 0),
    "star taken off": ([(CODE, "ensures* ends", "ensures ends")], ["changed function low::Table<T>::put"], 1),
    "method's dropped requires and ensures": ([(CODE, "        ensures old { IfSome result (λ it. it ≡ first self.old at) }\n", "")], ["changed function low::Table<T>::put"], 1),
    "another argument": ([(CODE, "key: u32)", "key: u64)")], ["changed function low::find"], 1),
    "another answer": ([(CODE, "-> Option<&'a T>", "-> Option<T>")], ["changed function low::find"], 1),
    "bound added to a generic": ([(CODE, "find<'a, T: Clone>", "find<'a, T: Clone + Copy>")], ["changed function low::find"], 1),
    "bound added to an impl": ([(CODE, "impl<T: Clone> Table<T> {", "impl<T: Clone + Copy> Table<T> {")], ["changed function low::Table<T>::put"], 1),
    "law weakened": ([(CODE, "(n : ℕ) → IsKept n n", "(n : ℕ) → IsKept 0 0")], ["changed function low::law"], 1),
    "function lost": ([(CODE, "pub fn law()\n    ensures { (n : ℕ) → IsKept n n }\n{}\n", "")], ["lost function low::law"], 1),
    "function no longer exported": ([(LIB, "find, law", "find")], ["lost function low::law"], 1),
    "function made private": ([(CODE, "pub fn law", "fn law")], ["lost function low::law"], 1),
    "function for the crate alone": ([(CODE, "pub fn law", "pub(crate) fn law")], ["lost function low::law"], 1),
    "renamed function": ([(CODE, "pub fn law", "pub fn theorem"), (LIB, "find, law", "find, theorem")], ["lost function low::law (crates/low/src/table.rt); is it low::theorem?", "new function low::theorem"], 1),
    "new function": ([(CODE, "/// A law.", "pub fn more() {}\n"), (LIB, "find, law", "find, law, more")], ["new function low::more"], 0),
    "new helper": ([(CODE, "/// A law.", "fn more() {}\n")], [], 0),
    "trait method's dropped clause": ([(CODE, "        ensures failed { IfSome result (λ fault. fault ≡ 3) };", "        ;")], ["changed function low::trait Line::send"], 1),
    "trait method with a body lost": ([(CODE, "    fn close(&mut self)\n        ensures { sent self.new ≡ sent self.old }\n    {\n        drop(self, \"{ not a brace\");\n    }\n", "")], ["lost function low::trait Line::close"], 1),
    "trait's ghost changed": ([(CODE, "ghost sent: { Self → List ℕ };", "ghost sent: { Self → ℕ };")], ["changed type low::trait Line"], 1),
    "what an impl says changed": ([(CODE, "ghost sent = { λ s. s.key };", "ghost sent = { λ s. 0 };")], ["changed type low::Line for Slot"], 1),
    "model changed": ([(CODE, "λ t. t.0.items", "λ t. []")], ["changed type low::Model for Table<T>"], 1),
    "implementation lost": ([(CODE, "impl Line for Slot", "impl Other for Slot")], ["lost function low::Line for Slot::send"], 1),
    "variant lost": ([(CODE, "    Full(u32),\n", "")], ["changed type low::State"], 1),
    "text of a variant changed": ([(CODE, '"empty"', '"none"')], ["changed type low::State"], 1),
    "public field's type changed": ([(CODE, "pub key: u32", "pub key: u64")], ["changed type low::Slot"], 1),
    "public field of a tuple lost": ([(CODE, "(Vec<T>, pub u32)", "(Vec<T>, u32)")], ["changed type low::Table"], 1),
    "private field changed": ([(CODE, "    count: usize,\n", "    count: u8,\n")], [], 0),
    "constant changed": ([(CODE, "usize = 64", "usize = 65")], ["changed type low::LIMIT"], 1),
    "derive taken off": ([(CODE, "Clone, Copy, Debug, PartialEq", "Clone, Copy, PartialEq")], ["no longer has Debug: low::State"], 0),
    "derive in another order": ([(CODE, "Clone, Copy, Debug, PartialEq", "PartialEq, Debug, Copy, Clone")], [], 0),
    "derive written by hand": ([(CODE, "Debug, PartialEq", "PartialEq"), (CODE, "/// A law.", "impl fmt::Debug for State {}\n")], [], 0),
    "definition changed": ([(PAGE, "first [] n = n", "first [] n = 0")], ["changed definition low::first"], 1),
    "definition behind a definition changed": ([(PAGE, "x + n --", "x --")], ["changed definition low::other"], 1),
    "record changed": ([(PAGE, "  pub same : a ≡ b\n", "  pub same : a ≡ a\n")], ["changed definition low::IsKept"], 1),
    "comment of a definition changed": ([(PAGE, "-- their sum", "-- both")], [], 0),
    "definition that nothing cites": ([(PAGE, "unused = 7", "unused = 8")], [], 0),
    "definition lost": ([(PAGE, "abbrev pub other : ℕ → ℕ → ℕ\nother x n = x + n -- their sum\n", "")], ["lost definition low::other"], 1),
    "name of another definition": ([(CODE, "low.specs.Table.{first, IsKept}", "low.specs.Table.{unused as first, IsKept}")], ["changed meaning of low::find"], 1),
    "definition of a page with an alias": ([(CODE, "ghost use Rattle.low.specs.Table.{first, IsKept};", "ghost use Rattle.low.specs.Table as table;\nghost use Rattle.low.specs.Table.{first, IsKept};"), (CODE, "requires { key < 8 }", "requires { key < table.unused }")], ["changed function low::find", "new definition low::unused"], 1),
    "test lost": ([(CODE, "    #[test]\n", "")], ["lost test finds_nothing"], 1),
    "case lost": ([("crates/low/data/a.cases", "case one", "case two")], ["lost case one", "new case two"], 1),
    "main weakened": ([("crates/tool/src/main.rt", "result ≡ 0", "result ≡ result")], ["changed function tool::main"], 1),
}
FIND = TEXTS[CODE][TEXTS[CODE].index("/// Finds."):TEXTS[CODE].index("/// A law.")]
HEAD = TEXTS[CODE][:TEXTS[CODE].index("/// The most")]
WITHOUT = {CODE: TEXTS[CODE].replace(FIND, "")}
HIGH = {**WITHOUT, "crates/high/src/lib.rt": "mod finding;\npub use finding::find;\n", "crates/high/src/finding.rt": HEAD + FIND}
UNEXPORTED = TEXTS[LIB].replace("find, law", "law")
# Trees in place of replacements.
MOVES = {
    "function in another file": ({**WITHOUT, "crates/low/src/finding.rt": HEAD + FIND, LIB: UNEXPORTED + "pub use finding::find;\n"},
                                 ["moved function low::find from crates/low/src/table.rt to crates/low/src/finding.rt"], 0),
    "function in another crate, passed on": ({**HIGH, LIB: UNEXPORTED + "pub use high::find;\n"}, ["moved function low::find from crates/low/src/table.rt to crates/high/src/finding.rt"], 0),
    "function in another crate, not passed on": ({**HIGH, LIB: UNEXPORTED}, ["moved function low::find from crates/low/src/table.rt to crates/high/src/finding.rt; low does not pass it on"], 0),
    "function in another crate, and weaker": ({**HIGH, LIB: UNEXPORTED, "crates/high/src/finding.rt": HEAD + FIND.replace("it ≡ first items key", "it ≡ it")}, ["changed function low::find"], 1),
    "page in another crate": ({PAGE: "", "crates/high/specs/Table.antt": TEXTS[PAGE], CODE: TEXTS[CODE].replace("Rattle.low.specs", "Rattle.high.specs")},
                              ["moved definition low::first", "moved definition low::other", "moved definition low::IsKept"], 0),
    "crate renamed": ({**{path: "" for path in TEXTS if "low" in path}, **{path.replace("low", "deep"): text.replace("Rattle.low", "Rattle.deep") for path, text in TEXTS.items() if "low" in path}},
                      ["moved function low::find", "moved function low::trait Line::send", "moved type low::State", "moved definition low::first"], 0),
}
# Lines of renames, words of TEXTS that have other names in the second tree, and what is told then.
RENAMES = {
    "word renamed": (["find look"], [("find", "look")], [], 0),
    "word renamed, and weaker": (["find look"], [("find", "look"), ("result ≡ None → key ≡ 0", "result ≡ None → key ≡ key")], ["changed function low::look"], 1),
    "word of a page renamed": (["first earliest low.specs.Table"], [("first", "earliest")], [], 0),
    "word of another page": (["first earliest low.specs.Other"], [("first", "earliest")], None, 2),
    "text renamed": ([" key < 8 => key < 9"], [("key < 8", "key < 9")], [], 0),
    "renames nothing": (["nowhere there"], [], None, 2),
}
QUIET = ("traits: ", "types: ", "definitions: ", "tests: ", "cases: ")


def edited(edits):
    tree = dict(TEXTS)
    for path, old, new in edits:
        if old not in tree[path]:
            raise ValueError(f"no such text: {old}")
        tree[path] = tree[path].replace(old, new, 1)
    return tree


def wrong(tree, wanted, status):
    """Why the tool's answer is not as wanted, or nothing."""
    lines, is_bad = clauses.compare(TEXTS, tree)
    told = [it for it in lines[:-1] if not it.startswith(QUIET)]
    missing = [it for it in wanted if not any(line.startswith(it) for line in told)]
    if missing:
        return f"not told: {missing}; told: {told}"
    if not wanted and told:
        return f"told: {told}"
    return f"status {int(is_bad)}, and not {status}: {told}" if is_bad != status else ""


def renamed_wrong(renames, words, wanted, status):
    """Why the tool's answer to a tree with other names is not as wanted, or nothing."""
    tree = TEXTS
    for old, new in words:
        tree = {path: re.sub(rf"(?<!\w){re.escape(old)}(?!\w)", new, text) for path, text in tree.items()}
    before, idle = clauses.renamed(TEXTS, renames)
    if wanted is None:
        return "" if idle else "no line renames nothing"
    lines, is_bad = clauses.compare(before, tree)
    told = [it for it in lines[:-1] if not it.startswith(QUIET)]
    right = not idle and is_bad == status and len(told) >= len(wanted) and all(any(line.startswith(it) for line in told) for it in wanted)
    return "" if right and (wanted or not told) else f"status {int(is_bad)}, told {told}, idle {idle}"


def main():
    tries = [(name, edited(edits), told, status) for name, (edits, told, status) in TRIES.items()]
    tries += [(name, {**TEXTS, **texts}, told, status) for name, (texts, told, status) in MOVES.items()]
    bad = 0
    for name, tree, told, status in tries:
        why = wrong(tree, told, status)
        bad += bool(why)
        if why:
            print(f"{name}: {why}")
    for name, (renames, words, told, status) in RENAMES.items():
        why = renamed_wrong(renames, words, told, status)
        bad += bool(why)
        if why:
            print(f"{name}: {why}")
    print(f"{len(tries) + len(RENAMES)} tried, {bad} wrong")
    return 1 if bad else 0


if __name__ == "__main__":
    sys.exit(main())
