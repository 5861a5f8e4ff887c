#!/usr/bin/env python3
"""Turns the sources of the refutation from a log into one Rust file, by text: rebuild.py REPOSITORY FILE

A program is built only where it is proved, so that the figures come from a translation: contracts are left out, and lists are
Rust's own. The bank, the atoms and the table of steps, of which only look-ups are timed, are stood in for by the plain lists below."""
import re
import sys
from pathlib import Path

SOURCES = {
    "sat_base": ["literal", "clause", "store"],
    "sat_log": ["stamps", "resolver", "chain", "log"],
    "sat_propagate": ["packed"],
    "stt_core": ["ty", "nf"],
    "tableau_calculus": ["lit", "refutation"],
    "refute_share": ["term", "lit", "refutation", "pool", "plain"],
    "literal_map": ["instance"],
    "tableau_clauses": ["origin"],
    "tableau_rebuild": [
        "draft", "arena", "packed_branch", "branch", "literals", "line", "needed", "in_range", "lines", "numbering", "pool", "reached", "rows",
        "walk", "refutation",
    ],
}

# What is left out of a file, from this text on.
ENDS = {"tableau_calculus/lit": "    /// A list of the same literals"}

STANDS_IN = """
pub mod rt {
    use std::ops::{Deref, DerefMut};
    #[derive(Clone, Copy, Debug)]
    pub struct Global;
    #[derive(Clone, Copy, Debug)]
    pub struct AllocError;
    #[derive(Debug)]
    pub struct Vec<T>(pub std::vec::Vec<T>);
    impl<T> Vec<T> {
        pub fn new(_: Global) -> Self { Vec(std::vec::Vec::new()) }
        pub fn with_capacity(_: Global, n: usize) -> Result<Self, AllocError> { Ok(Vec(std::vec::Vec::with_capacity(n))) }
        pub fn push(&mut self, x: T) -> Result<(), AllocError> { self.0.push(x); Ok(()) }
        pub fn push_reserved(&mut self, x: T) { self.0.push(x) }
        pub fn reserve(&mut self, n: usize) -> Result<(), AllocError> { self.0.reserve(n); Ok(()) }
        pub fn reserve_exact(&mut self, n: usize) -> Result<(), AllocError> { self.0.reserve_exact(n); Ok(()) }
        pub fn pop(&mut self) -> Option<T> { self.0.pop() }
        pub fn insert(&mut self, i: usize, x: T) -> Result<(), AllocError> { self.0.insert(i, x); Ok(()) }
        pub fn clear(&mut self) { self.0.clear() }
        pub fn as_slice(&self) -> &[T] { &self.0 }
    }
    impl<T: Clone> Vec<T> {
        pub fn resize(&mut self, n: usize, x: T) -> Result<(), AllocError> { self.0.resize(n, x); Ok(()) }
        pub fn from_slice(_: Global, xs: &[T]) -> Result<Self, AllocError> { Ok(Vec(xs.to_vec())) }
    }
    impl<T: Ord> Vec<T> {
        pub fn sort(&mut self) -> Result<(), AllocError> { self.0.sort(); Ok(()) }
        pub fn dedup(&mut self) { self.0.dedup() }
    }
    impl<T> Deref for Vec<T> { type Target = [T]; fn deref(&self) -> &[T] { &self.0 } }
    impl<T> DerefMut for Vec<T> { fn deref_mut(&mut self) -> &mut [T] { &mut self.0 } }
    impl<'a, T> IntoIterator for &'a Vec<T> {
        type Item = &'a T;
        type IntoIter = std::slice::Iter<'a, T>;
        fn into_iter(self) -> Self::IntoIter { self.0.iter() }
    }
    pub type SmallVec<T> = Vec<T>;
    #[derive(Debug)]
    pub struct Box<T>(std::boxed::Box<T>);
    impl<T> Box<T> { pub fn new(_: Global, x: T) -> Result<Self, AllocError> { Ok(Box(std::boxed::Box::new(x))) } }
    impl<T> Deref for Box<T> { type Target = T; fn deref(&self) -> &T { &self.0 } }
    #[derive(Debug)]
    pub struct Rc<T>(std::rc::Rc<T>);
    impl<T> Rc<T> {
        pub fn new(_: Global, x: T) -> Result<Self, AllocError> { Ok(Rc(std::rc::Rc::new(x))) }
        pub fn clone(shared: &Self) -> Result<Self, AllocError> { Ok(Rc(std::rc::Rc::clone(&shared.0))) }
    }
    impl<T> Deref for Rc<T> { type Target = T; fn deref(&self) -> &T { &self.0 } }
}

pub mod indexmap {
    use crate::rt::{AllocError, Global};
    /// Places of keys, in the order in which they came.
    pub struct IndexSet<T>(std::collections::HashMap<T, usize>);
    impl<T: Eq + std::hash::Hash> IndexSet<T> {
        pub fn new(_: Global) -> Self { IndexSet(std::collections::HashMap::new()) }
        pub fn insert_full(&mut self, key: T) -> Result<(usize, bool), AllocError> {
            let next = self.0.len();
            match self.0.entry(key) {
                std::collections::hash_map::Entry::Occupied(entry) => Ok((*entry.get(), false)),
                std::collections::hash_map::Entry::Vacant(entry) => { entry.insert(next); Ok((next, true)) }
            }
        }
    }
}

pub mod term_bank {
    use crate::rt::{AllocError, Global, Vec};
    use crate::stt_core::{Head, Nf, Nfs, Ty, Types};
    pub type Id = usize;
    pub struct Ids(std::vec::Vec<usize>);
    impl Ids {
        pub fn len(&self) -> usize { self.0.len() }
        pub fn at(&self, i: usize) -> usize { self.0[i] }
    }
    pub enum Node { Lam { ty: Ty, body: Id }, App { head: Head, args: Ids } }
    /// Names alone.
    pub struct Bank { pub nodes: Vec<Node> }
    pub fn name(k: u32) -> Node { Node::App { head: Head::Name(k), args: Ids(std::vec::Vec::new()) } }
    impl Bank {
        pub fn node(&self, id: Id) -> &Node { &self.nodes[id] }
        pub fn max_witness(&self, _: Id) -> Option<u32> { None }
        pub fn export(&self, id: Id) -> Result<Nf, AllocError> {
            match self.node(id) {
                Node::Lam { .. } => Err(AllocError),
                Node::App { head, .. } => Ok(Nf { binders: Types::new(Global), head: head.try_clone(Global)?, args: Nfs::new(Global) }),
            }
        }
    }
    pub fn equal_ids_for_equal_terms(_: &Bank) {}
}

pub mod witness_names {
    pub struct Witnesses;
    impl Witnesses {
        pub fn len(&self) -> u32 { 0 }
        pub fn predicate(&self, _: u32) -> usize { 0 }
        pub fn find(&self, _: usize) -> Option<u32> { None }
    }
}

pub mod rebuild_spec {
    pub fn rebuilt_is_accepted() {}
    pub fn rebuilt_is_trimmed() {}
}
"""

# These stand beside the translated files of their crates.
BESIDE = {
    "literal_map": """
        pub struct LitTable { pub atoms: std::vec::Vec<usize> }
        impl LitTable {
            pub fn len(&self) -> usize { self.atoms.len() }
            pub fn formula_of(&self, lit: crate::sat_base::SatLit) -> usize { self.atoms[lit.var.0] }
        }
    """,
    "tableau_clauses": """
        use crate::literal_map::Instance;
        use crate::sat_base::Clause;
        pub struct StepTable { pub steps: std::vec::Vec<(Clause, Origin)>, pub instances: std::vec::Vec<Instance> }
        impl StepTable {
            pub fn len(&self) -> usize { self.steps.len() }
            pub fn clause(&self, n: usize) -> &Clause { &self.steps[n].0 }
            pub fn origin(&self, n: usize) -> Origin { self.steps[n].1 }
            pub fn instance(&self, k: usize) -> &Instance { &self.instances[k] }
            pub fn clauses_come_from_origins(&self) {}
        }
    """,
    "stt_core": """
        use crate::rt::{AllocError, Global};
        pub fn same_nf(_: &Nf, _: &Nf) -> bool { false }
        impl Types { pub fn try_clone(&self, _: Global) -> Result<Types, AllocError> { Ok(Types::new(Global)) } }
        impl Nf { pub fn try_clone(&self, _: Global) -> Result<Nf, AllocError> { Err(AllocError) } }
    """,
    "tableau_rebuild": """
        pub mod law {
            pub fn tables_are_given<A, B, C, D, E>(_: &A, _: &B, _: &C, _: &D, _: &E) {}
        }
    """,
}


def depth(line):
    return line.count("{") - line.count("}")


def without_ghosts(lines):
    """The lines that are code."""
    kept, at = [], 0
    while at < len(lines):
        words = lines[at].strip()
        if re.match(r"(requires|ensures|ghost)\b", words) or words.startswith(("impl Model for", "impl Drop for")):
            level = depth(lines[at])
            while level > 0 or (words.startswith("ghost") and not lines[at].rstrip().endswith((";", ","))):
                at += 1
                level += depth(lines[at])
        elif re.match(r"(impl|pub fn|fn).*Iter<", words) or words.startswith("pub fn iter("):
            while lines[at].strip() != "}":
                at += 1
        else:
            kept.append(lines[at])
        at += 1
    return kept


def module(repository, crate, name):
    text = (repository / "crates" / crate / "src" / f"{name}.rt").read_text()
    end = ENDS.get(f"{crate}/{name}")
    if end:
        text = text.split(end)[0] + "}\n"
    lines = [line for line in text.split("\n") if not line.startswith(("//!", "use std::", "use smallvec", "use thiserror", "#![", "#[error"))]
    code = "\n".join(without_ghosts(lines))
    code = re.sub(r"#\[cycle\(\w+\)\]\n", "", code)
    code = re.sub(r"\s*#\[error\(.*\)\]", "", code)
    code = code.replace(", Drop)]", ")]").replace("#[derive(Drop)]\n", "").replace(", Error)]", ")]")
    code = code.replace("SmallVec<SatLit, INLINE>", "SmallVec<SatLit>")
    code = code.replace("use crate::", f"use crate::{crate}::")
    code = re.sub(r"\buse (?!crate)(\w+)::", r"use crate::\1::", code)
    return f"pub mod {name} {{\n#[allow(unused_imports)]\nuse crate::rt::*;\n{code}\n}}\npub use {name}::*;\n"


def main():
    repository, out = Path(sys.argv[1]), Path(sys.argv[2])
    parts = ["#![allow(dead_code, unused_imports, ambiguous_glob_reexports)]", STANDS_IN]
    for crate, names in SOURCES.items():
        inside = "".join(module(repository, crate, name) for name in names)
        parts.append(f"pub mod {crate} {{\n{BESIDE.get(crate, '')}\n{inside}}}\n")
    parts.append((Path(__file__).parent / "rebuild_main.txt").read_text())
    out.write_text("\n".join(parts))


main()
