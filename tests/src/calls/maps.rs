//! Maps by text, and names that point to places.

use crate::calls::checks::{Answer, are_right};
use bib_collections::claims::Claims;
use bib_collections::names::Names;
use bib_collections::text_map::TextMap;
use bib_text::text::Text;
use std::alloc::{AllocError, Global};

// These texts.
fn texts(alloc: Global, all: &[&str]) -> Result<Vec<Text>, AllocError> {
    let mut texts = Vec::new(alloc);
    for text in all {
        texts.push(Text::from_str(alloc, *text)?)?;
    }
    Ok(texts)
}

// Whether the map has these two values and no more.
fn has_both(map: &TextMap<u8>, b: u8, a: u8) -> bool {
    map.len() == 2 && map.get("b") == Some(&b) && map.get("a") == Some(&a)
}

fn inserts_values(alloc: Global) -> Answer {
    let mut map = TextMap::new(alloc);
    let first = map.insert(Text::from_str(alloc, "b")?, 1u8)?;
    let second = map.insert(Text::from_str(alloc, "a")?, 2)?;
    let third = map.insert(Text::from_str(alloc, "b")?, 3)?;
    let had = first == None && second == None && third == Some(1);
    Ok(had && has_both(&map, 3, 2))
}

// A map of three pairs, of which two have one name.
fn map_of_pairs(alloc: Global) -> Result<TextMap<u8>, AllocError> {
    let mut pairs = Vec::new(alloc);
    for (name, value) in [("b", 1u8), ("a", 2), ("b", 3)] {
        pairs.push((Text::from_str(alloc, name)?, value))?;
    }
    TextMap::from_pairs(pairs)
}

fn collects_a_map(alloc: Global) -> Answer {
    let pairs = map_of_pairs(alloc)?.into_pairs();
    Ok(has_both(&TextMap::from_iter(alloc, pairs)?, 3, 2))
}

fn makes_a_map_of_pairs(alloc: Global) -> Answer {
    Ok(has_both(&map_of_pairs(alloc)?, 3, 2))
}

fn clones_a_map(alloc: Global) -> Answer {
    Ok(has_both(&map_of_pairs(alloc)?.clone()?, 3, 2))
}

fn retains_values(alloc: Global) -> Answer {
    let mut map = map_of_pairs(alloc)?;
    map.retain(|name, value| {
        *value += 4;
        name == "b"
    });
    Ok(map.len() == 1 && map.get("b") == Some(&7))
}

fn extends_a_map(alloc: Global) -> Answer {
    let mut map = TextMap::new(alloc);
    map.insert(Text::from_str(alloc, "b")?, 9u8)?;
    map.extend(map_of_pairs(alloc)?)?;
    Ok(has_both(&map, 3, 2))
}

// Whether `b` points to the place 1, `a` to 2, and `c` nowhere.
fn are_pointing(names: &Names) -> bool {
    names.get("b") == Some(1) && names.get("a") == Some(2) && names.get("c") == None
}

fn claims_a_name(alloc: Global) -> Answer {
    let mut names = Names::new(alloc);
    names.claim(Text::from_str(alloc, "b")?, 1)?;
    names.claim(Text::from_str(alloc, "a")?, 2)?;
    Ok(are_pointing(&names))
}

// Names, claimed all at once and then one of them anew.
fn names_at_once(alloc: Global) -> Result<Names, AllocError> {
    let mut names = Names::new(alloc);
    names.claim_all(texts(alloc, &["b", "a"])?, 1)?;
    names.claim_all(texts(alloc, &["a"])?, 2)?;
    Ok(names)
}

fn claims_names_at_once(alloc: Global) -> Answer {
    Ok(are_pointing(&names_at_once(alloc)?))
}

fn clones_names(alloc: Global) -> Answer {
    Ok(are_pointing(&names_at_once(alloc)?.clone()?))
}

// Whether `b` points to the place 1, `a` to 2, and `c` nowhere.
fn are_claimed(claims: &Claims) -> bool {
    claims.get("b") == Some(1) && claims.get("a") == Some(2) && claims.get("c") == None
}

fn claims_a_name_so_far(alloc: Global) -> Answer {
    let mut claims = Claims::new(alloc);
    claims.claim(Text::from_str(alloc, "b")?, 1)?;
    claims.claim(Text::from_str(alloc, "a")?, 2)?;
    Ok(are_claimed(&claims))
}

// Names, claimed so far.
fn claims_at_once(alloc: Global) -> Result<Claims, AllocError> {
    let mut claims = Claims::new(alloc);
    claims.claim_all(texts(alloc, &["b", "a"])?, 1)?;
    claims.claim_all(texts(alloc, &["a"])?, 2)?;
    Ok(claims)
}

fn claims_a_new_name(alloc: Global) -> Answer {
    let mut claims = Claims::new(alloc);
    let first = claims.claim_new(Text::from_str(alloc, "b")?, 1)?;
    let second = claims.claim_new(Text::from_str(alloc, "a")?, 3)?;
    let third = claims.claim_new(Text::from_str(alloc, "a")?, 2)?;
    Ok(first && second && !third && are_claimed(&claims))
}

fn claims_names_so_far(alloc: Global) -> Answer {
    Ok(are_claimed(&claims_at_once(alloc)?))
}

fn keeps_claims(alloc: Global) -> Answer {
    Ok(are_pointing(&claims_at_once(alloc)?.into_names(alloc)?))
}

#[test]
fn maps_and_names(rt: HostRuntime) {
    let alloc = rt.alloc();
    let calls = [
        ("TextMap::insert", inserts_values(alloc)),
        ("TextMap::from_pairs", makes_a_map_of_pairs(alloc)),
        ("TextMap::from_iter", collects_a_map(alloc)),
        ("TextMap::clone", clones_a_map(alloc)),
        ("TextMap::retain", retains_values(alloc)),
        ("TextMap::extend", extends_a_map(alloc)),
        ("Names::claim", claims_a_name(alloc)),
        ("Names::claim_all", claims_names_at_once(alloc)),
        ("Names::clone", clones_names(alloc)),
        ("Claims::claim", claims_a_name_so_far(alloc)),
        ("Claims::claim_new", claims_a_new_name(alloc)),
        ("Claims::claim_all", claims_names_so_far(alloc)),
        ("Claims::into_names", keeps_claims(alloc)),
    ];
    are_right(&rt, &calls);
}
