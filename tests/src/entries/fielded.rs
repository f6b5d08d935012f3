//! The setters and getters of typed values by their names, each type's in an implementation.

use bib_chunks::chunk::Chunks;
use bib_dates::date::Date;
use bib_entry::entry::Entry;
use bib_typed::retrieval::RetrievalError;
use bib_tables::types::lang::Language;
use bib_tables::types::{Gender, Pagination};
use bib_people::person::Person;
use bib_typed::typed::{PermissiveType, Type};
use std::alloc::{AllocError, Global};
use std::ops::Range;
use crate::support::shown::Shown;

/// A type that has setters and getters.
pub trait Fielded: Type + Shown + Drop {
    /// Sets a field by the setter of this name, if there is one.
    fn set(entry: &mut Entry, name: &str, value: &Self) -> Option<Result<(), AllocError>>;

    /// What the getter of this name reads, if there is one.
    fn get(entry: &Entry, alloc: Global, name: &str) -> Option<Result<Self, RetrievalError>>;
}

impl Fielded for i64 {
    fn set(entry: &mut Entry, name: &str, value: &Self) -> Option<Result<(), AllocError>> {
        match name {
            "volumes" => Some(entry.set_volumes(value)),
            _ => None,
        }
    }

    fn get(entry: &Entry, alloc: Global, name: &str) -> Option<Result<Self, RetrievalError>> {
        match name {
            "volumes" => Some(entry.volumes(alloc)),
            _ => None,
        }
    }
}

impl Fielded for String {
    fn set(entry: &mut Entry, name: &str, value: &Self) -> Option<Result<(), AllocError>> {
        match name {
            "type_" => Some(entry.set_type_(value)),
            "author_type" => Some(entry.set_author_type(value)),
            "doi" => Some(entry.set_doi(value)),
            "eprint" => Some(entry.set_eprint(value)),
            "url" => Some(entry.set_url(value)),
            "sort_key" => Some(entry.set_sort_key(value)),
            "file" => Some(entry.set_file(value)),
            _ => None,
        }
    }

    fn get(entry: &Entry, alloc: Global, name: &str) -> Option<Result<Self, RetrievalError>> {
        match name {
            "type_" => Some(entry.type_(alloc)),
            "author_type" => Some(entry.author_type(alloc)),
            "doi" => Some(entry.doi(alloc)),
            "eprint" => Some(entry.eprint(alloc)),
            "url" => Some(entry.url(alloc)),
            "sort_key" => Some(entry.sort_key(alloc)),
            "file" => Some(entry.file(alloc)),
            _ => None,
        }
    }
}

impl Fielded for Pagination {
    fn set(entry: &mut Entry, name: &str, value: &Self) -> Option<Result<(), AllocError>> {
        match name {
            "book_pagination" => Some(entry.set_book_pagination(value)),
            "pagination" => Some(entry.set_pagination(value)),
            _ => None,
        }
    }

    fn get(entry: &Entry, alloc: Global, name: &str) -> Option<Result<Self, RetrievalError>> {
        match name {
            "book_pagination" => Some(entry.book_pagination(alloc)),
            "pagination" => Some(entry.pagination(alloc)),
            _ => None,
        }
    }
}

impl Fielded for Gender {
    fn set(entry: &mut Entry, name: &str, value: &Self) -> Option<Result<(), AllocError>> {
        match name {
            "gender" => Some(entry.set_gender(value)),
            _ => None,
        }
    }

    fn get(entry: &Entry, alloc: Global, name: &str) -> Option<Result<Self, RetrievalError>> {
        match name {
            "gender" => Some(entry.gender(alloc)),
            _ => None,
        }
    }
}

impl Fielded for PermissiveType<i64> {
    fn set(entry: &mut Entry, name: &str, value: &Self) -> Option<Result<(), AllocError>> {
        match name {
            "edition" => Some(entry.set_edition(value)),
            "volume" => Some(entry.set_volume(value)),
            _ => None,
        }
    }

    fn get(entry: &Entry, alloc: Global, name: &str) -> Option<Result<Self, RetrievalError>> {
        match name {
            "edition" => Some(entry.edition(alloc)),
            "volume" => Some(entry.volume(alloc)),
            _ => None,
        }
    }
}

impl Fielded for PermissiveType<Language> {
    fn set(entry: &mut Entry, name: &str, value: &Self) -> Option<Result<(), AllocError>> {
        match name {
            "langid" => Some(entry.set_langid(value)),
            _ => None,
        }
    }

    fn get(entry: &Entry, alloc: Global, name: &str) -> Option<Result<Self, RetrievalError>> {
        match name {
            "langid" => Some(entry.langid(alloc)),
            _ => None,
        }
    }
}

impl Fielded for PermissiveType<Vec<Range<u32>>> {
    fn set(entry: &mut Entry, name: &str, value: &Self) -> Option<Result<(), AllocError>> {
        match name {
            "pages" => Some(entry.set_pages(value)),
            _ => None,
        }
    }

    fn get(entry: &Entry, alloc: Global, name: &str) -> Option<Result<Self, RetrievalError>> {
        match name {
            "pages" => Some(entry.pages(alloc)),
            _ => None,
        }
    }
}

impl Fielded for PermissiveType<Date> {
    fn set(entry: &mut Entry, name: &str, value: &Self) -> Option<Result<(), AllocError>> {
        match name {
            "date" => Some(entry.set_date(value)),
            "event_date" => Some(entry.set_event_date(value)),
            "orig_date" => Some(entry.set_orig_date(value)),
            "url_date" => Some(entry.set_url_date(value)),
            _ => None,
        }
    }

    fn get(entry: &Entry, alloc: Global, name: &str) -> Option<Result<Self, RetrievalError>> {
        match name {
            "date" => Some(entry.date(alloc)),
            "event_date" => Some(entry.event_date(alloc)),
            "orig_date" => Some(entry.orig_date(alloc)),
            "url_date" => Some(entry.url_date(alloc)),
            _ => None,
        }
    }
}

impl Fielded for Vec<String> {
    fn set(entry: &mut Entry, name: &str, value: &Self) -> Option<Result<(), AllocError>> {
        match name {
            "orig_language" => Some(entry.set_orig_language(value)),
            _ => None,
        }
    }

    fn get(entry: &Entry, alloc: Global, name: &str) -> Option<Result<Self, RetrievalError>> {
        match name {
            "orig_language" => Some(entry.orig_language(alloc)),
            _ => None,
        }
    }
}

impl Fielded for Vec<Chunks> {
    fn set(entry: &mut Entry, name: &str, value: &Self) -> Option<Result<(), AllocError>> {
        match name {
            "organization" => Some(entry.set_organization(value)),
            "publisher" => Some(entry.set_publisher(value)),
            "orig_location" => Some(entry.set_orig_location(value)),
            _ => None,
        }
    }

    fn get(entry: &Entry, alloc: Global, name: &str) -> Option<Result<Self, RetrievalError>> {
        match name {
            "organization" => Some(entry.organization(alloc)),
            "publisher" => Some(entry.publisher(alloc)),
            "orig_location" => Some(entry.orig_location(alloc)),
            _ => None,
        }
    }
}

impl Fielded for Vec<PermissiveType<Language>> {
    fn set(entry: &mut Entry, name: &str, value: &Self) -> Option<Result<(), AllocError>> {
        match name {
            "language" => Some(entry.set_language(value)),
            _ => None,
        }
    }

    fn get(entry: &Entry, alloc: Global, name: &str) -> Option<Result<Self, RetrievalError>> {
        match name {
            "language" => Some(entry.language(alloc)),
            _ => None,
        }
    }
}

impl Fielded for Vec<Person> {
    fn set(entry: &mut Entry, name: &str, value: &Self) -> Option<Result<(), AllocError>> {
        match name {
            "author" => Some(entry.set_author(value)),
            "afterword" => Some(entry.set_afterword(value)),
            "annotator" => Some(entry.set_annotator(value)),
            "book_author" => Some(entry.set_book_author(value)),
            "commentator" => Some(entry.set_commentator(value)),
            "foreword" => Some(entry.set_foreword(value)),
            "holder" => Some(entry.set_holder(value)),
            "introduction" => Some(entry.set_introduction(value)),
            "short_author" => Some(entry.set_short_author(value)),
            "short_editor" => Some(entry.set_short_editor(value)),
            "translator" => Some(entry.set_translator(value)),
            _ => None,
        }
    }

    fn get(entry: &Entry, alloc: Global, name: &str) -> Option<Result<Self, RetrievalError>> {
        match name {
            "author" => Some(entry.author(alloc)),
            "afterword" => Some(entry.afterword(alloc)),
            "annotator" => Some(entry.annotator(alloc)),
            "book_author" => Some(entry.book_author(alloc)),
            "commentator" => Some(entry.commentator(alloc)),
            "foreword" => Some(entry.foreword(alloc)),
            "holder" => Some(entry.holder(alloc)),
            "introduction" => Some(entry.introduction(alloc)),
            "short_author" => Some(entry.short_author(alloc)),
            "short_editor" => Some(entry.short_editor(alloc)),
            "translator" => Some(entry.translator(alloc)),
            _ => None,
        }
    }
}
