use crate::view::Nodes;
use crate::{KeyRef, RefBareItem, Role, View};

/// One thing of a value, in the order of the text. An Item or an Inner List is followed by its
/// parameters; those of an Inner List follow its end.
///
/// ```
/// use sf::{Event, Kind, Parser};
/// use std::ops::ControlFlow;
///
/// // The sum of all Integers of a List that are members.
/// let mut sum = 0;
/// let visited = Parser::new().visit(Kind::List, "1, 2;a=9, (7)", |event| {
///     if let Event::Item { value, .. } = event {
///         sum += value.as_integer().unwrap_or(0);
///     }
///     ControlFlow::<()>::Continue(())
/// });
/// assert_eq!((visited, sum), (Ok(None), 3));
/// ```
#[derive(Clone, Copy, Debug, PartialEq, Eq)]
pub enum Event<'a> {
    /// The Item of an Item field, or a member that is an Item, with the key that it has in a
    /// Dictionary.
    Item {
        /// The key.
        key: Option<&'a KeyRef>,
        /// The bare item.
        value: RefBareItem<'a>,
    },
    /// An Inner List begins.
    InnerListStart {
        /// The key that it has in a Dictionary.
        key: Option<&'a KeyRef>,
    },
    /// An Item of the Inner List.
    InnerItem {
        /// The bare item.
        value: RefBareItem<'a>,
    },
    /// The Inner List ends.
    InnerListEnd,
    /// A parameter of the Item or the Inner List before it.
    Parameter {
        /// The key.
        key: &'a KeyRef,
        /// The value.
        value: RefBareItem<'a>,
    },
}

/// The events of a value: see [`View::events`].
///
/// ```
/// let mut space = sf::Space::<8, 32>::new();
/// let view = sf::Parser::new().view(sf::Kind::Item, "a;b;c", &mut space).unwrap();
/// assert_eq!(view.events().count(), 3);
/// ```
#[derive(Clone, Debug)]
pub struct Events<'a, 't: 'a> {
    nodes: Nodes<'a, 't>,
    /// The index of the node before which the Inner List that is open ends.
    inner_end: Option<usize>,
}

impl<'a, 't: 'a> Events<'a, 't> {
    pub(crate) fn new(view: &View<'a, 't>) -> Events<'a, 't> {
        Events {
            nodes: view.members(),
            inner_end: None,
        }
    }
}

impl<'a, 't: 'a> Iterator for Events<'a, 't> {
    type Item = Event<'a>;

    fn next(&mut self) -> Option<Event<'a>> {
        let mut after = self.nodes.clone();
        let next = after.advance(true);
        if let Some(end) = self.inner_end {
            if next.map_or(true, |node| node.index() >= end) {
                self.inner_end = None;
                return Some(Event::InnerListEnd);
            }
        }
        let node = next?;
        self.nodes = after;
        Some(match (node.role(), node.bare_item()) {
            (_, None) => {
                let items_end = node.items().last().map(|item| item.end());
                self.inner_end = Some(items_end.unwrap_or(node.index() + 1));
                let key = node.key_if_any();
                Event::InnerListStart { key }
            }
            (Role::Member, Some(value)) => {
                let key = node.key_if_any();
                Event::Item { key, value }
            }
            (Role::InnerItem, Some(value)) => Event::InnerItem { value },
            (Role::Parameter, Some(value)) => {
                let key = node.key();
                Event::Parameter { key, value }
            }
        })
    }
}
