//! The cursor over a text, and values that know where they stand: each call once.

use crate::calls::checks::agrees;
use bib_text::scanner::Scanner;
use bib_text::spanned::Spanned;
use std::test::Fail;

#[test]
fn moves_over_characters(rt: HostRuntime) -> Result<(), Fail> {
    let mut s = Scanner::new("aé 12x");
    assert!(rt; s.peek() == Some('a'));
    assert!(rt; s.at('a'));
    assert!(rt; s.eat() == Some('a'));
    assert!(rt; !s.eat_if('e'));
    assert!(rt; s.eat_if('é'));
    assert!(rt; s.cursor() == 3);
    agrees(&rt, s.eat_whitespace(), " ");
    agrees(&rt, s.eat_while(|c| c.is_ascii_digit()), "12");
    agrees(&rt, s.before(), "aé 12");
    agrees(&rt, s.eat_until(|c| c == 'y'), "x");
    assert!(rt; s.done());
    assert!(rt; s.eat() == None);
    Ok(())
}

#[test]
fn jumps_to_places(rt: HostRuntime) -> Result<(), Fail> {
    let mut s = Scanner::new("one two");
    assert!(rt; s.cursor() == 0);
    s.jump(3);
    assert!(rt; s.cursor() == 3);
    agrees(&rt, s.from(0), "one");
    s.jump(7);
    assert!(rt; s.done());
    agrees(&rt, s.from(4), "two");
    Ok(())
}

#[test]
fn values_know_where_they_stand(rt: HostRuntime) -> Result<(), Fail> {
    let value = Spanned::new(7u8, 2..4);
    assert!(rt; !value.is_detached());
    assert!(rt; *value.as_ref().v == 7);
    let doubled = value.map(|n| u16::from(n) * 2);
    assert!(rt; doubled.v == 14);
    assert!(rt; doubled.span == (2..4));
    assert!(rt; Spanned::zero('a').span == (0..0));
    assert!(rt; Spanned::detached('a').is_detached());
    assert!(rt; doubled.clone()? == doubled);
    Ok(())
}
