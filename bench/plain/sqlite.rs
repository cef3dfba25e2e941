//! The document in the tables of a SQLite file in WAL mode, with an index by place. A hundred
//! requests make one transaction; all settings but the journal's are SQLite's own.

use crate::json::{self, Value};
use crate::position::Pos;
use crate::rules::{Id, Kind, Object, Place, Store, KINDS, ROOT};
use std::ffi::{c_void, CString};
use std::os::raw::{c_char, c_int};
use std::ptr::{null, null_mut};

#[link(name = "sqlite3")]
extern "C" {
    fn sqlite3_open(name: *const c_char, db: *mut *mut c_void) -> c_int;
    fn sqlite3_prepare_v2(
        db: *mut c_void,
        sql: *const c_char,
        len: c_int,
        statement: *mut *mut c_void,
        rest: *mut *const c_char,
    ) -> c_int;
    fn sqlite3_bind_int64(statement: *mut c_void, at: c_int, number: i64) -> c_int;
    fn sqlite3_bind_blob(
        statement: *mut c_void,
        at: c_int,
        bytes: *const u8,
        len: c_int,
        free: *const c_void,
    ) -> c_int;
    fn sqlite3_step(statement: *mut c_void) -> c_int;
    fn sqlite3_reset(statement: *mut c_void) -> c_int;
    fn sqlite3_column_int64(statement: *mut c_void, at: c_int) -> i64;
    fn sqlite3_column_blob(statement: *mut c_void, at: c_int) -> *const u8;
    fn sqlite3_column_bytes(statement: *mut c_void, at: c_int) -> c_int;
}

const OK: c_int = 0;
const ROW: c_int = 100;
const DONE: c_int = 101;

enum Field<'a> {
    Number(i64),
    Bytes(&'a [u8]),
}

use Field::{Bytes, Number};

/// A prepared statement.
struct Statement {
    raw: *mut c_void,
}

impl Statement {
    fn new(db: *mut c_void, sql: &str) -> Statement {
        let text = CString::new(sql).expect("SQL has no zero byte");
        let mut raw = null_mut();
        let status = unsafe { sqlite3_prepare_v2(db, text.as_ptr(), -1, &mut raw, null_mut()) };
        assert_eq!(status, OK, "{sql}");
        Statement { raw }
    }

    /// Runs the statement with these fields, which live until it has ended, and shows each row.
    fn each_row(&self, fields: &[Field], mut show: impl FnMut(Row)) {
        for (at, field) in (1..).zip(fields) {
            let status = match field {
                Number(number) => unsafe { sqlite3_bind_int64(self.raw, at, *number) },
                Bytes(bytes) => unsafe {
                    sqlite3_bind_blob(self.raw, at, bytes.as_ptr(), bytes.len() as c_int, null())
                },
            };
            assert_eq!(status, OK, "SQLite binds no field");
        }
        let end = loop {
            match unsafe { sqlite3_step(self.raw) } {
                ROW => show(Row { statement: self }),
                end => break end,
            }
        };
        assert_eq!(end, DONE, "SQLite stops in a statement");
        unsafe { sqlite3_reset(self.raw) };
    }

    fn run(&self, fields: &[Field]) {
        self.each_row(fields, |_| ());
    }

    /// What is read from the last row.
    fn last<T>(&self, fields: &[Field], read: impl Fn(Row) -> T) -> Option<T> {
        let mut last = None;
        self.each_row(fields, |row| last = Some(read(row)));
        last
    }
}

struct Row<'a> {
    statement: &'a Statement,
}

impl Row<'_> {
    fn number(&self, at: c_int) -> i64 {
        unsafe { sqlite3_column_int64(self.statement.raw, at) }
    }

    fn bytes(&self, at: c_int) -> Vec<u8> {
        let bytes = unsafe { sqlite3_column_blob(self.statement.raw, at) };
        let len = unsafe { sqlite3_column_bytes(self.statement.raw, at) };
        match len {
            0 => Vec::new(),
            _ => unsafe { std::slice::from_raw_parts(bytes, len as usize) }.to_vec(),
        }
    }

    fn id(&self, at: c_int) -> Id {
        let number = self.number(at);
        Id {
            client: (number >> 32) as u32,
            counter: number as u32,
        }
    }

    fn kind(&self, at: c_int) -> Kind {
        KINDS[self.number(at) as usize].0
    }
}

/// An id as a number, in the order of ids for clients below 2^31.
fn key(id: Id) -> Field<'static> {
    Number(i64::from(id.client) << 32 | i64::from(id.counter))
}

pub struct Tables {
    kind: Statement,
    place: Statement,
    child_at: Statement,
    next: Statement,
    children: Statement,
    insert: Statement,
    update: Statement,
    put_prop: Statement,
    clear_prop: Statement,
    remove: Statement,
    remove_props: Statement,
    objects: Statement,
    props: Statement,
    begin: Statement,
    commit: Statement,
    requests: u64,
}

impl Tables {
    pub fn new(file: &str) -> Tables {
        let name = CString::new(file).expect("a file's name has no zero byte");
        let mut db = null_mut();
        assert_eq!(
            unsafe { sqlite3_open(name.as_ptr(), &mut db) },
            OK,
            "{file}"
        );
        let sql = |text: &str| Statement::new(db, text);
        sql("pragma journal_mode = wal").run(&[]);
        sql("create table object(id integer primary key, kind integer, parent integer, pos blob)")
            .run(&[]);
        sql("create unique index place on object(parent, pos)").run(&[]);
        sql(
            "create table prop(id integer, name blob, value blob, primary key(id, name)) \
             without rowid",
        )
        .run(&[]);
        sql("insert into object(id, kind) values(0, 0)").run(&[]);
        sql("begin").run(&[]);
        Tables {
            kind: sql("select kind from object where id = ?"),
            place: sql("select parent, pos from object where id = ? and parent is not null"),
            child_at: sql("select id from object where parent = ? and pos = ?"),
            next: sql(
                "select pos from object where parent = ? and pos > ? and id <> ? \
                       order by pos limit 1",
            ),
            children: sql("select id from object where parent = ?"),
            insert: sql("insert into object(id, kind, parent, pos) values(?, ?, ?, ?)"),
            update: sql("update object set parent = ?, pos = ? where id = ?"),
            put_prop: sql("insert or replace into prop values(?, ?, ?)"),
            clear_prop: sql("delete from prop where id = ? and name = ?"),
            remove: sql("delete from object where id = ?"),
            remove_props: sql("delete from prop where id = ?"),
            objects: sql("select id, kind, parent, pos from object order by id"),
            props: sql("select name, value from prop where id = ? order by name"),
            begin: sql("begin"),
            commit: sql("commit"),
            requests: 0,
        }
    }
}

impl Store for Tables {
    fn kind_of(&self, id: Id) -> Option<Kind> {
        self.kind.last(&[key(id)], |row| row.kind(0))
    }

    fn parent_of(&self, id: Id) -> Option<Id> {
        self.place.last(&[key(id)], |row| row.id(0))
    }

    fn place_of(&self, id: Id) -> Option<Place> {
        self.place.last(&[key(id)], |row| Place {
            parent: row.id(0),
            pos: row.bytes(1),
        })
    }

    fn child_at(&self, place: &Place) -> Option<Id> {
        self.child_at
            .last(&[key(place.parent), Bytes(&place.pos)], |row| row.id(0))
    }

    fn next_position(&self, place: &Place, except: Id) -> Option<Pos> {
        let fields = [key(place.parent), Bytes(&place.pos), key(except)];
        self.next.last(&fields, |row| row.bytes(0))
    }

    fn add_children(&self, parent: Id, to: &mut Vec<Id>) {
        self.children
            .each_row(&[key(parent)], |row| to.push(row.id(0)));
    }

    fn create(&mut self, id: Id, kind: Kind, place: Place) {
        let fields = [
            key(id),
            Number(kind as i64),
            key(place.parent),
            Bytes(&place.pos),
        ];
        self.insert.run(&fields);
    }

    fn put_place(&mut self, id: Id, place: Place) {
        self.update
            .run(&[key(place.parent), Bytes(&place.pos), key(id)]);
    }

    fn put_prop(&mut self, id: Id, name: &str, value: Option<Value>) {
        match value {
            Some(value) => {
                let mut text = Vec::new();
                json::write(&value, &mut text);
                self.put_prop
                    .run(&[key(id), Bytes(name.as_bytes()), Bytes(&text)]);
            }
            None => self.clear_prop.run(&[key(id), Bytes(name.as_bytes())]),
        }
    }

    fn remove(&mut self, ids: &[Id]) {
        for id in ids {
            self.remove.run(&[key(*id)]);
            self.remove_props.run(&[key(*id)]);
        }
    }

    fn each(&self, show: &mut dyn FnMut(Id, &Object)) {
        self.objects.each_row(&[], |row| {
            let id = row.id(0);
            let place = (id != ROOT).then(|| Place {
                parent: row.id(2),
                pos: row.bytes(3),
            });
            let mut object = Object::new(row.kind(1), place);
            self.props.each_row(&[key(id)], |prop| {
                let name = String::from_utf8(prop.bytes(0)).expect("a name is ASCII");
                object
                    .props
                    .push((name, json::read(&prop.bytes(1)).expect("a value is JSON")));
            });
            show(id, &object);
        });
    }

    fn end_request(&mut self) {
        self.requests += 1;
        if self.requests % 100 == 0 {
            self.commit.run(&[]);
            self.begin.run(&[]);
        }
    }
}

impl Drop for Tables {
    fn drop(&mut self) {
        self.commit.run(&[]);
    }
}
