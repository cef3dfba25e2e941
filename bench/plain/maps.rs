//! The document in two ordered maps: the objects by id, and the ids by place.

use crate::json::Value;
use crate::position::Pos;
use crate::rules::{Id, Kind, Object, Place, Store, ROOT};
use std::collections::BTreeMap;
use std::ops::Bound::{Excluded, Unbounded};

pub struct Maps {
    objects: BTreeMap<Id, Object>,
    spots: BTreeMap<Place, Id>,
}

impl Maps {
    pub fn new() -> Maps {
        Maps {
            objects: BTreeMap::from([(ROOT, Object::new(Kind::Document, None))]),
            spots: BTreeMap::new(),
        }
    }
}

impl Store for Maps {
    fn kind_of(&self, id: Id) -> Option<Kind> {
        self.objects.get(&id).map(|object| object.kind)
    }

    fn parent_of(&self, id: Id) -> Option<Id> {
        self.objects.get(&id)?.parent()
    }

    fn place_of(&self, id: Id) -> Option<Place> {
        self.objects.get(&id)?.place.clone()
    }

    fn child_at(&self, place: &Place) -> Option<Id> {
        self.spots.get(place).copied()
    }

    fn next_position(&self, place: &Place, except: Id) -> Option<Pos> {
        let after = self.spots.range((Excluded(place), Unbounded));
        let mut siblings = after.take_while(|(spot, _)| spot.parent == place.parent);
        let (spot, _) = siblings.find(|(_, id)| **id != except)?;
        Some(spot.pos.clone())
    }

    fn add_children(&self, parent: Id, to: &mut Vec<Id>) {
        let first = Place {
            parent,
            pos: Pos::new(),
        };
        let children = self
            .spots
            .range(first..)
            .take_while(|(spot, _)| spot.parent == parent);
        to.extend(children.map(|(_, id)| *id));
    }

    fn create(&mut self, id: Id, kind: Kind, place: Place) {
        self.spots.insert(place.clone(), id);
        self.objects.insert(id, Object::new(kind, Some(place)));
    }

    fn put_place(&mut self, id: Id, place: Place) {
        if let Some(object) = self.objects.get_mut(&id) {
            if let Some(old) = object.place.replace(place.clone()) {
                self.spots.remove(&old);
            }
            self.spots.insert(place, id);
        }
    }

    fn put_prop(&mut self, id: Id, name: &str, value: Option<Value>) {
        if let Some(object) = self.objects.get_mut(&id) {
            object.put_prop(name, value);
        }
    }

    fn remove(&mut self, ids: &[Id]) {
        for id in ids {
            if let Some(place) = self.objects.remove(id).and_then(|object| object.place) {
                self.spots.remove(&place);
            }
        }
    }

    fn each(&self, show: &mut dyn FnMut(Id, &Object)) {
        self.objects
            .iter()
            .for_each(|(id, object)| show(*id, object));
    }
}
