//! crdts_bench < LOG: plays a log on one `crdts::Map`, which has for each id a map of the object's
//! kind, place and properties. It judges nothing; ids by parent are kept beside it, so that a
//! deletion finds what lies below.

use crdts::{CmRDT, MVReg, Map};
use std::collections::{HashMap, HashSet};
use std::io::{self, Read};

type Object = Map<String, MVReg<String, u32>, u32>;

#[derive(Default)]
struct Canvas {
    objects: Map<String, Object, u32>,
    parents: HashMap<String, String>,
    children: HashMap<String, HashSet<String>>,
}

impl Canvas {
    fn write(&mut self, actor: u32, id: &str, name: &str, value: String) {
        let context = self.objects.read_ctx().derive_add_ctx(actor);
        let op = self.objects.update(id, context, |object, context| {
            object.update(name, context, |register, context| register.write(value, context))
        });
        self.objects.apply(op);
    }

    fn put(&mut self, actor: u32, id: &str, parent: &str, pos: &str) {
        self.write(actor, id, "place", format!("{parent} {pos}"));
        if let Some(old) = self.parents.insert(id.to_string(), parent.to_string()) {
            self.children.entry(old).or_default().remove(id);
        }
        self.children.entry(parent.to_string()).or_default().insert(id.to_string());
    }

    fn remove(&mut self, id: &str) {
        let mut ids = vec![id.to_string()];
        while let Some(id) = ids.pop() {
            ids.extend(self.children.remove(&id).unwrap_or_default());
            let context = self.objects.get(&id).derive_rm_ctx();
            let op = self.objects.rm(id, context);
            self.objects.apply(op);
        }
    }

    fn play(&mut self, line: &str) -> Option<()> {
        let (actor, rest) = line.split_once(' ')?;
        let (verb, rest) = rest.split_once(' ')?;
        let actor = actor.parse().ok()?;
        if verb == "delete" {
            self.remove(rest);
            return Some(());
        }
        let (id, rest) = rest.split_once(' ')?;
        let (word, rest) = rest.split_once(' ')?;
        match verb {
            "create" => {
                let (parent, pos) = rest.split_once(' ')?;
                self.write(actor, id, "kind", word.to_string());
                self.put(actor, id, parent, pos);
            }
            "move" => self.put(actor, id, word, rest),
            "set" => self.write(actor, id, &format!(".{word}"), rest.to_string()),
            _ => return None,
        }
        Some(())
    }
}

fn main() -> io::Result<()> {
    let mut text = String::new();
    io::stdin().read_to_string(&mut text)?;
    let mut canvas = Canvas::default();
    let played = text.lines().filter(|line| canvas.play(line).is_some()).count();
    println!("{played} requests, {} objects", canvas.objects.len().val);
    Ok(())
}
