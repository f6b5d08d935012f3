//! Copies of entry types, of what they ask for, and of the small enumerations.

use crate::calls::checks::{Answer, are_right};
use bib_tables::mechanics::{AuthorMode, EntryType, PagesChapterMode, Requirements};
use bib_tables::types::lang::Language;
use bib_tables::types::{EditorType, Gender, NameError, Pagination};
use bib_text::text::Text;
use std::alloc::{AllocError, Global};

fn clones_a_role(alloc: Global) -> Answer {
    let role = EditorType::Unknown(Text::from_str(alloc, "translator")?);
    let EditorType::Unknown(text) = role.clone()? else {
        return Ok(false);
    };
    Ok(text.as_str() == "translator")
}

fn clones_a_type(alloc: Global) -> Answer {
    let kind = EntryType::Unknown(Text::from_str(alloc, "foo")?);
    let EntryType::Unknown(name) = kind.clone()? else {
        return Ok(false);
    };
    Ok(name.as_str() == "foo")
}

// Requirements of which no part is empty.
fn requirements(alloc: Global) -> Result<Requirements, AllocError> {
    let mut asked = Requirements::new(alloc);
    asked.required.push("title")?;
    asked.optional.push("note")?;
    asked.forbidden.push("isbn")?;
    asked.author_eds_field = AuthorMode::NoneRequired;
    asked.page_chapter_field = PagesChapterMode::OneRequired;
    asked.needs_date = true;
    Ok(asked)
}

// Whether the names of fields are these.
fn are_fields(asked: &Requirements) -> bool {
    asked.required.as_slice() == ["title"].as_slice()
        && asked.optional.as_slice() == ["note"].as_slice()
        && asked.forbidden.as_slice() == ["isbn"].as_slice()
}

fn clones_requirements(alloc: Global) -> Answer {
    let copy = requirements(alloc)?.clone()?;
    let are_modes = copy.author_eds_field == AuthorMode::NoneRequired
        && copy.page_chapter_field == PagesChapterMode::OneRequired;
    Ok(are_fields(&copy) && are_modes && copy.needs_date)
}

fn clones_small_values(_alloc: Global) -> Answer {
    Ok(
        NameError::Unknown.clone()? == NameError::Unknown
            && Pagination::Verse.clone()? == Pagination::Verse
            && Gender::PluralMale.clone()? == Gender::PluralMale
            && Language::Greek.clone()? == Language::Greek
            && AuthorMode::NoneRequired.clone()? == AuthorMode::NoneRequired
            && PagesChapterMode::OneRequired.clone()? == PagesChapterMode::OneRequired,
    )
}

#[test]
fn types_and_enumerations(rt: HostRuntime) {
    let alloc = rt.alloc();
    let calls = [
        ("EditorType::clone", clones_a_role(alloc)),
        ("EntryType::clone", clones_a_type(alloc)),
        ("Requirements::clone", clones_requirements(alloc)),
        ("clones of small values", clones_small_values(alloc)),
    ];
    are_right(&rt, &calls);
}
