//! Texts, lists, and values that know where they stand.

use crate::calls::checks::{Answer, are_right};
use bib_text::items::Items;
use bib_text::scanner::Scanner;
use bib_text::spanned::Spanned;
use bib_text::text::Text;
use std::alloc::Global;

fn copies_a_text(alloc: Global) -> Answer {
    Ok(Text::from_str(alloc, "aé")?.as_str() == "aé")
}

fn appends_a_character(alloc: Global) -> Answer {
    let mut text = Text::new(alloc);
    text.push('é')?;
    Ok(text.as_str() == "é")
}

fn appends_a_text(alloc: Global) -> Answer {
    let mut text = Text::from_str(alloc, "a")?;
    text.push_str("éb")?;
    Ok(text.as_str() == "aéb")
}

fn clones_a_text(alloc: Global) -> Answer {
    let copy = Text::from_str(alloc, "aé")?.clone()?;
    Ok(copy.as_str() == "aé")
}

fn copies_a_long_text(alloc: Global) -> Answer {
    let text = "aé bc d".repeat(alloc, 131_072)?;
    let mut copy = Text::from_str(alloc, text.as_str())?.clone()?;
    copy.push_str(text.as_str())?;
    Ok(copy.len() == 2_097_152)
}

fn appends_an_element(alloc: Global) -> Answer {
    let mut items = Items::new(alloc);
    items.push(7u8)?;
    items.push(8)?;
    Ok(items.as_slice() == [7u8, 8].as_slice())
}

fn clones_a_list(alloc: Global) -> Answer {
    let copy = Items::from_vec([7u8, 8].to_vec(alloc)?).clone()?;
    Ok(copy.as_slice() == [7u8, 8].as_slice())
}

fn puts_an_element_between(alloc: Global) -> Answer {
    let mut items = Items::from_vec([7u8, 9].to_vec(alloc)?);
    items.insert(1, 8)?;
    Ok(items.as_slice() == [7u8, 8, 9].as_slice())
}

fn appends_clones(alloc: Global) -> Answer {
    let mut items = Items::from_vec([7u8].to_vec(alloc)?);
    items.extend_from_slice([8u8, 9].as_slice())?;
    Ok(items.as_slice() == [7u8, 8, 9].as_slice())
}

fn appends_a_million_clones(alloc: Global) -> Answer {
    let many = Vec::from_elem(alloc, 7u8, 1_048_576)?;
    let mut items = Items::new(alloc);
    items.extend_from_slice(many.as_slice())?;
    items.insert(0, 8)?;
    Ok(items.len() == 1_048_577 && items.first() == Some(&8) && items.last() == Some(&7))
}

fn clones_a_placed_value(alloc: Global) -> Answer {
    let copy = Spanned::new(Text::from_str(alloc, "é")?, 2..4).clone()?;
    Ok(copy.v.as_str() == "é" && copy.span == (2..4))
}

fn clones_a_cursor(_alloc: Global) -> Answer {
    let mut scanner = Scanner::new("ab");
    scanner.eat();
    let copy = scanner.clone()?;
    Ok(copy.cursor() == 1 && copy.peek() == Some('b'))
}

#[test]
fn texts_and_lists(rt: HostRuntime) {
    let alloc = rt.alloc();
    let calls = [
        ("Text::from_str", copies_a_text(alloc)),
        ("Text::push", appends_a_character(alloc)),
        ("Text::push_str", appends_a_text(alloc)),
        ("Text::clone", clones_a_text(alloc)),
        ("Text of 2 MiB", copies_a_long_text(alloc)),
        ("Items::push", appends_an_element(alloc)),
        ("Items::clone", clones_a_list(alloc)),
        ("Items::insert", puts_an_element_between(alloc)),
        ("Items::extend_from_slice", appends_clones(alloc)),
        ("Items of 1 MiB", appends_a_million_clones(alloc)),
        ("Spanned::clone", clones_a_placed_value(alloc)),
        ("Scanner::clone", clones_a_cursor(alloc)),
    ];
    are_right(&rt, &calls);
}
