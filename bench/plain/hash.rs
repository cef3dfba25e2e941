//! The document in hash maps, as one writes it first: the objects by id, and the children of each
//! parent as a list without an order.

use crate::json::Value;
use crate::position::Pos;
use crate::rules::{Id, Kind, Object, Place, Store, ROOT};
use std::collections::HashMap;

pub struct Hash {
    objects: HashMap<Id, Object>,
    children: HashMap<Id, Vec<Id>>,
}

impl Hash {
    pub fn new() -> Hash {
        Hash {
            objects: HashMap::from([(ROOT, Object::new(Kind::Document, None))]),
            children: HashMap::new(),
        }
    }

    /// The children of a parent, with their positions.
    fn spots(&self, parent: Id) -> impl Iterator<Item = (Id, &Pos)> {
        let ids = self.children.get(&parent).into_iter().flatten();
        ids.filter_map(|id| Some((*id, &self.objects.get(id)?.place.as_ref()?.pos)))
    }

    fn leave(&mut self, parent: Id, id: Id) {
        if let Some(ids) = self.children.get_mut(&parent) {
            ids.retain(|other| *other != id);
        }
    }
}

impl Store for Hash {
    fn kind_of(&self, id: Id) -> Option<Kind> {
        self.objects.get(&id).map(|object| object.kind)
    }

    fn parent_of(&self, id: Id) -> Option<Id> {
        self.objects.get(&id)?.parent()
    }

    fn place_of(&self, id: Id) -> Option<Place> {
        self.objects.get(&id)?.place.clone()
    }

    fn child_at(&self, place: &Place) -> Option<Id> {
        self.spots(place.parent)
            .find(|(_, pos)| **pos == place.pos)
            .map(|(id, _)| id)
    }

    fn next_position(&self, place: &Place, except: Id) -> Option<Pos> {
        let after = self
            .spots(place.parent)
            .filter(|(_, pos)| **pos > place.pos);
        after
            .filter(|(id, _)| *id != except)
            .map(|(_, pos)| pos)
            .min()
            .cloned()
    }

    fn add_children(&self, parent: Id, to: &mut Vec<Id>) {
        to.extend(self.children.get(&parent).into_iter().flatten());
    }

    fn create(&mut self, id: Id, kind: Kind, place: Place) {
        self.children.entry(place.parent).or_default().push(id);
        self.objects.insert(id, Object::new(kind, Some(place)));
    }

    fn put_place(&mut self, id: Id, place: Place) {
        let old = self.parent_of(id);
        if old != Some(place.parent) {
            old.into_iter().for_each(|old| self.leave(old, id));
            self.children.entry(place.parent).or_default().push(id);
        }
        if let Some(object) = self.objects.get_mut(&id) {
            object.place = Some(place);
        }
    }

    fn put_prop(&mut self, id: Id, name: &str, value: Option<Value>) {
        if let Some(object) = self.objects.get_mut(&id) {
            object.put_prop(name, value);
        }
    }

    /// Only what is removed with its parent is still among that one's children, which go whole.
    fn remove(&mut self, ids: &[Id]) {
        for id in ids {
            self.children.remove(id);
            let parent = self.objects.remove(id).and_then(|object| object.parent());
            match parent {
                Some(parent) if ids.binary_search(&parent).is_err() => self.leave(parent, *id),
                _ => (),
            }
        }
    }

    fn each(&self, show: &mut dyn FnMut(Id, &Object)) {
        let mut objects: Vec<_> = self.objects.iter().collect();
        objects.sort_unstable_by_key(|(id, _)| **id);
        objects
            .into_iter()
            .for_each(|(id, object)| show(*id, object));
    }
}
