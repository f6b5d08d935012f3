//! A long run of inserts, aliases and removals leaves what it leaves in a plain list with a map of names.

use crate::bibliography_calls::checks::{agrees, key_of, keys};
use biblatex::{Bibliography, Entry, EntryType, Text};
use std::alloc::{AllocError, Global};
use std::collections::BTreeMap;
use std::process::Abort;
use std::test::Fail;

// The names that the long run chooses from.
static NAMES: [&str; 12] = [
    "", "a", "b", "c", "aa", "ab", "A", "B", "é", "z", "a b", "0",
];

// The plain model of a bibliography: the key of each entry, and the place that each name points to.
#[derive(Drop)]
struct Plain {
    keys: Vec<&'static str>,
    places: BTreeMap<&'static str, usize>,
}

impl Plain {
    // The key of the entry that a name points to, or a dash.
    fn key_of(&self, name: &str) -> Result<&'static str, Fail> {
        match self.places.get(name) {
            Some(place) => Ok(*self.keys.get(*place).ok_or("a key")?),
            None => Ok("-"),
        }
    }

    // The keys, each after a bar.
    fn keys(&self, alloc: Global) -> Result<String, Fail> {
        let mut out = String::new(alloc);
        for key in &self.keys {
            out.push('|')?;
            out.push_str(*key)?;
        }
        Ok(out)
    }

    // Adds an entry of this key, or lets it stand where the name points.
    fn insert(&mut self, name: &'static str) -> Result<(), Fail> {
        if let Some(place) = self.places.get(name).copied() {
            let key = self.keys.get_mut(place).ok_or("a key")?;
            *key = name;
            return Ok(());
        }
        self.places.insert(name, self.keys.len())?;
        self.keys.push(name)?;
        Ok(())
    }

    // Lets another name point where a name points.
    fn alias(&mut self, name: &str, alias: &'static str) -> Result<(), Fail> {
        if let Some(place) = self.places.get(name).copied() {
            self.places.insert(alias, place)?;
        }
        Ok(())
    }

    // Takes an entry out, and makes the names anew.
    fn remove(&mut self, alloc: Global, name: &str) -> Result<(), Fail> {
        let Some(gone) = self.places.get(name).copied() else {
            return Ok(());
        };
        let mut places = BTreeMap::new(alloc);
        for name in &NAMES {
            match self.places.get(*name).copied() {
                Some(place) if place < gone => places.insert(*name, place)?,
                Some(place) if place > gone => places.insert(*name, place.wrapping_sub(1))?,
                _ => None,
            };
        }
        self.places = places;
        let mut keys = Vec::new(alloc);
        for (place, key) in self.keys.iter().enumerate() {
            if place != gone {
                keys.push(*key)?;
            }
        }
        self.keys = keys;
        Ok(())
    }
}

// A number below 65,536 from the generator, which goes on.
fn drawn(seed: &mut u32) -> u32 {
    *seed = seed.wrapping_mul(1_664_525).wrapping_add(1_013_904_223);
    *seed / 65_536
}

// One of the names.
fn drawn_name(seed: &mut u32) -> Result<&'static str, Fail> {
    let place = (drawn(seed) % 12) as usize;
    Ok(*NAMES.get(place).ok_or("a name")?)
}

// The bibliography and its model have one length, the same keys, and the same entry for each name.
fn check_same(
    rt: &impl Abort,
    alloc: Global,
    bibliography: &Bibliography,
    plain: &Plain,
) -> Result<(), Fail> {
    assert!(rt; bibliography.len() == plain.keys.len());
    agrees(
        rt,
        keys(alloc, bibliography)?.as_str(),
        plain.keys(alloc)?.as_str(),
    );
    for name in &NAMES {
        agrees(rt, key_of(bibliography, *name), plain.key_of(*name)?);
    }
    Ok(())
}

// Adds an entry of this key and of no fields. (It and the next two have no contracts, so that who calls them proves nothing
// again.)
fn insert(alloc: Global, bibliography: &mut Bibliography, key: &str) -> Result<(), AllocError> {
    let key = Text::from_str(alloc, key)?;
    match bibliography.insert(Entry::new(alloc, key, EntryType::Misc)) {
        Ok(_) => Ok(()),
        Err(_) => Err(AllocError),
    }
}

// Lets another name point where a name points.
fn alias(bibliography: &mut Bibliography, name: &str, alias: &str) -> Result<(), AllocError> {
    bibliography.alias(name, alias)
}

// Takes an entry out.
fn remove(bibliography: &mut Bibliography, name: &str) {
    bibliography.remove(name);
}

// One call, chosen by the generator, of the bibliography and of its model.
fn step(
    alloc: Global,
    seed: &mut u32,
    bibliography: &mut Bibliography,
    plain: &mut Plain,
) -> Result<(), Fail> {
    let call = drawn(seed) % 4;
    let name = drawn_name(seed)?;
    match call {
        0 => {
            let other = drawn_name(seed)?;
            alias(bibliography, name, other)?;
            plain.alias(name, other)
        }
        1 => {
            remove(bibliography, name);
            plain.remove(alloc, name)
        }
        _ => {
            insert(alloc, bibliography, name)?;
            plain.insert(name)
        }
    }
}

#[test]
fn changes_as_a_plain_list_does(rt: HostRuntime) -> Result<(), Fail> {
    let alloc = rt.alloc();
    let mut seed = 1;
    let mut bibliography = Bibliography::new(alloc);
    let mut plain = Plain {
        keys: Vec::new(alloc),
        places: BTreeMap::new(alloc),
    };
    for _ in 0..1_000 {
        step(alloc, &mut seed, &mut bibliography, &mut plain)?;
        check_same(&rt, alloc, &bibliography, &plain)?;
    }
    Ok(())
}
