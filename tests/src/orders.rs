//! Reads rows, an order and a text in each line, and prints each with the keys of the entries in that order, or with the error of the
//! order.

use crate::support::rows::Calls;
use edit_entries::document::RawDocument;
use edit_orders::order::{Order, OrderError};
use edit_orders::places::order_places;
use std::alloc::{AllocError, Global};

pub struct Orders;

// The keys of the entries of a document, sorted by their places.
fn keys(alloc: Global, document: &RawDocument<'_>, places: &[usize]) -> Result<String, AllocError> {
    let mut out = String::new(alloc);
    for place in 0..places.len() {
        for (index, entry) in document.raw().entries.iter().enumerate() {
            if places[index] == place {
                out.push_str(entry.v.key.v)?;
                out.push(' ')?;
            }
        }
    }
    Ok(out)
}

// The keys of the entries of a text in an order.
fn ordered(alloc: Global, order: Order, text: &str) -> Result<String, AllocError> {
    match RawDocument::parse(alloc, text) {
        Ok(document) => {
            let places = order_places(alloc, order, document.raw())?;
            keys(alloc, &document, &places)
        }
        Err(_) => String::from_str(alloc, "no bibliography"),
    }
}

impl Calls for Orders {
    fn answer(alloc: Global, call: &str, text: &str) -> Result<Option<String>, AllocError> {
        match Order::parse(call) {
            Ok(order) => Ok(Some(ordered(alloc, order, text)?)),
            Err(OrderError::UnknownProperty(word)) => Ok(Some(format!(in alloc; "unknown property `{word}`")?)),
            Err(OrderError::TooManyProperties) => Ok(Some(String::from_str(alloc, "too many properties")?)),
        }
    }
}
