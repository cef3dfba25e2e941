//! The document's rules: what a change asks, where the objects are kept, and the verdict.

use crate::json::Value;
use crate::position::{middle, Pos};
use std::fmt;

#[derive(Clone, Copy, PartialEq, Eq, PartialOrd, Ord, Hash)]
pub struct Id {
    pub client: u32,
    pub counter: u32,
}

pub const ROOT: Id = Id {
    client: 0,
    counter: 0,
};

#[derive(Clone, Copy, PartialEq)]
pub enum Kind {
    Document,
    Page,
    Frame,
    Shape,
    Text,
}

pub const KINDS: [(Kind, &str); 5] = [
    (Kind::Document, "document"),
    (Kind::Page, "page"),
    (Kind::Frame, "frame"),
    (Kind::Shape, "shape"),
    (Kind::Text, "text"),
];

impl Kind {
    pub fn read(word: &[u8]) -> Option<Kind> {
        let (kind, _) = KINDS.iter().find(|(_, name)| name.as_bytes() == word)?;
        Some(*kind)
    }

    fn stands_under(self, parent: Kind) -> bool {
        match self {
            Kind::Document => false,
            Kind::Page => parent == Kind::Document,
            _ => parent == Kind::Page || parent == Kind::Frame,
        }
    }
}

#[derive(Clone, PartialEq, Eq, PartialOrd, Ord)]
pub struct Place {
    pub parent: Id,
    pub pos: Pos,
}

pub struct Object {
    pub kind: Kind,
    pub place: Option<Place>,
    /// In the order of their names.
    pub props: Vec<(String, Value)>,
}

impl Object {
    pub fn new(kind: Kind, place: Option<Place>) -> Object {
        Object {
            kind,
            place,
            props: Vec::new(),
        }
    }

    pub fn parent(&self) -> Option<Id> {
        self.place.as_ref().map(|place| place.parent)
    }

    pub fn put_prop(&mut self, name: &str, value: Option<Value>) {
        match (
            self.props
                .binary_search_by(|(other, _)| other.as_str().cmp(name)),
            value,
        ) {
            (Ok(i), Some(value)) => self.props[i].1 = value,
            (Ok(i), None) => drop(self.props.remove(i)),
            (Err(i), Some(value)) => self.props.insert(i, (name.to_string(), value)),
            (Err(_), None) => (),
        }
    }
}

pub enum Change {
    Create(Id, Kind, Place),
    Set(Id, String, Option<Value>),
    Move(Id, Place),
    Delete(Id),
}

pub enum Outcome {
    Joined(u32),
    Created(Place),
    WasSet,
    Moved(Place),
    Removed(Vec<Id>),
    Refused(Reason, Option<Place>),
}

#[derive(Clone, Copy, Debug)]
pub enum Reason {
    IsRoot = 1,
    BadId,
    Gone,
    ParentGone,
    BadParent,
    Cycle,
    Crowded,
}

/// Where the live objects are kept; the root is always there.
pub trait Store {
    fn kind_of(&self, id: Id) -> Option<Kind>;
    fn parent_of(&self, id: Id) -> Option<Id>;
    fn place_of(&self, id: Id) -> Option<Place>;
    /// The child of the parent that stands at this place.
    fn child_at(&self, place: &Place) -> Option<Id>;
    /// The least position after this place of a child other than this one.
    fn next_position(&self, place: &Place, except: Id) -> Option<Pos>;
    fn add_children(&self, parent: Id, to: &mut Vec<Id>);
    fn create(&mut self, id: Id, kind: Kind, place: Place);
    fn put_place(&mut self, id: Id, place: Place);
    fn put_prop(&mut self, id: Id, name: &str, value: Option<Value>);
    fn remove(&mut self, ids: &[Id]);
    /// Shows each object, in id order.
    fn each(&self, show: &mut dyn FnMut(Id, &Object));
    /// Is called after each request.
    fn end_request(&mut self) {}
}

/// What becomes of an author's change, whose creations have used the counters up to `used`.
pub fn judge(store: &impl Store, author: u32, used: u32, change: &Change) -> Outcome {
    match change {
        Change::Create(id, kind, place) => {
            let is_new = id.client == author && id.counter > used;
            match judge_create(store, is_new, *id, *kind, place) {
                Ok(place) => Outcome::Created(place),
                Err(reason) => Outcome::Refused(reason, None),
            }
        }
        Change::Set(id, ..) => match store.kind_of(*id) {
            Some(_) => Outcome::WasSet,
            None => Outcome::Refused(Reason::Gone, None),
        },
        Change::Move(id, place) => match judge_move(store, *id, place) {
            Ok(place) => Outcome::Moved(place),
            Err(reason) => Outcome::Refused(reason, store.place_of(*id)),
        },
        Change::Delete(id) => match judge_delete(store, *id) {
            Ok(ids) => Outcome::Removed(ids),
            Err(reason) => Outcome::Refused(reason, None),
        },
    }
}

fn judge_create(
    store: &impl Store,
    is_new: bool,
    id: Id,
    kind: Kind,
    place: &Place,
) -> Result<Place, Reason> {
    if id == ROOT {
        return Err(Reason::IsRoot);
    }
    if !is_new {
        return Err(Reason::BadId);
    }
    check_parent(store, kind, place.parent)?;
    free_place(store, id, place)
}

fn judge_move(store: &impl Store, id: Id, place: &Place) -> Result<Place, Reason> {
    if id == ROOT {
        return Err(Reason::IsRoot);
    }
    let kind = store.kind_of(id).ok_or(Reason::Gone)?;
    check_parent(store, kind, place.parent)?;
    let mut above = Some(place.parent);
    while let Some(at) = above {
        if at == id {
            return Err(Reason::Cycle);
        }
        above = store.parent_of(at);
    }
    free_place(store, id, place)
}

fn judge_delete(store: &impl Store, id: Id) -> Result<Vec<Id>, Reason> {
    if id == ROOT {
        return Err(Reason::IsRoot);
    }
    store.kind_of(id).ok_or(Reason::Gone)?;
    let mut ids = vec![id];
    let mut next = 0;
    while next < ids.len() {
        store.add_children(ids[next], &mut ids);
        next += 1;
    }
    ids.sort_unstable();
    Ok(ids)
}

/// Whether an object of this kind may stand under the parent.
fn check_parent(store: &impl Store, kind: Kind, parent: Id) -> Result<(), Reason> {
    let parent_kind = store.kind_of(parent).ok_or(Reason::ParentGone)?;
    kind.stands_under(parent_kind)
        .then(|| ())
        .ok_or(Reason::BadParent)
}

/// The asked place, or a free one after it.
fn free_place(store: &impl Store, id: Id, place: &Place) -> Result<Place, Reason> {
    match store.child_at(place) {
        Some(other) if other != id => {
            let next = store.next_position(place, id);
            let pos = middle(&place.pos, next.as_deref()).ok_or(Reason::Crowded)?;
            Ok(Place {
                parent: place.parent,
                pos,
            })
        }
        _ => Ok(place.clone()),
    }
}

impl fmt::Display for Id {
    fn fmt(&self, out: &mut fmt::Formatter) -> fmt::Result {
        write!(out, "{}:{}", self.client, self.counter)
    }
}

impl fmt::Display for Kind {
    fn fmt(&self, out: &mut fmt::Formatter) -> fmt::Result {
        out.write_str(KINDS[*self as usize].1)
    }
}

impl fmt::Display for Place {
    fn fmt(&self, out: &mut fmt::Formatter) -> fmt::Result {
        let pos = std::str::from_utf8(&self.pos).map_err(|_| fmt::Error)?;
        write!(out, "{} {pos}", self.parent)
    }
}

impl fmt::Display for Outcome {
    fn fmt(&self, out: &mut fmt::Formatter) -> fmt::Result {
        match self {
            Outcome::Joined(client) => write!(out, "joined {client}"),
            Outcome::Created(place) => write!(out, "created {place}"),
            Outcome::WasSet => out.write_str("set"),
            Outcome::Moved(place) => write!(out, "moved {place}"),
            Outcome::Removed(ids) => {
                out.write_str("removed")?;
                ids.iter().try_for_each(|id| write!(out, " {id}"))
            }
            Outcome::Refused(reason, stands) => {
                write!(out, "refused {} {reason:?}", *reason as u8)?;
                stands
                    .iter()
                    .try_for_each(|place| write!(out, " stands {place}"))
            }
        }
    }
}
