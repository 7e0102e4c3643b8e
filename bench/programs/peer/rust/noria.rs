//! The store as a peer in Rust: the calls of its library in C, whose texts are UTF-8 by their type.

use crate::functions;
use crate::store::*;
use std::ffi::{c_int, c_void};
use std::slice::from_raw_parts;
use std::sync::Mutex;

type Ptr = *mut c_void;
type OnRow = unsafe extern "C" fn(Ptr, u64, u64, *const u8, u64, u64);

functions!(Api {
    open = "peer_open": fn(u64, u64, u64) -> Ptr;
    session = "peer_session": fn(Ptr, u64) -> Ptr;
    story = "peer_story": fn(Ptr, u64, u64, *const u8, u64) -> c_int;
    vote = "peer_vote": fn(Ptr, u64, u64, i64) -> c_int;
    read = "peer_read": fn(Ptr, u64, Ptr, OnRow) -> i64;
    fence = "peer_fence": fn(Ptr) -> c_int;
    session_close = "peer_session_close": fn(Ptr);
    close = "peer_close": fn(Ptr);
});

/// What the library knows by a pointer, which any thread may use, one at a time.
struct Handle(Ptr);
unsafe impl Send for Handle {}
unsafe impl Sync for Handle {}

/// The store, with a session for each processor at most.
pub struct Noria {
    api: Api,
    sessions: usize,
    store: Option<Handle>,
    opened: Mutex<Vec<Handle>>,
}

impl Noria {
    pub fn new(library: &str, sessions: usize) -> Result<Noria, String> {
        let api = Api::open(library)?;
        Ok(Noria { api, sessions, store: None, opened: Mutex::new(Vec::new()) })
    }

    // The session of this number, which is opened with those before it.
    fn handle(&self, number: usize) -> Ptr {
        let mut opened = self.opened.lock().unwrap();
        let store = self.store.as_ref().expect("an open store").0;
        while opened.len() <= number {
            let session = unsafe { (self.api.session)(store, opened.len() as u64) };
            assert!(!session.is_null(), "a session is refused");
            opened.push(Handle(session));
        }
        opened[number].0
    }
}

impl Drop for Noria {
    fn drop(&mut self) {
        for session in self.opened.lock().unwrap().drain(..) {
            unsafe { (self.api.session_close)(session.0) };
        }
        if let Some(store) = &self.store {
            unsafe { (self.api.close)(store.0) };
        }
    }
}

impl Store for Noria {
    fn load_stories(&mut self, shape: &Shape) {
        let (stories, authors) = (shape.stories as u64, shape.authors as u64);
        let store = unsafe { (self.api.open)(stories, authors, self.sessions as u64) };
        assert!(!store.is_null(), "the store is refused");
        self.store = Some(Handle(store));
        let session = self.handle(0);
        for story in 0..shape.stories {
            let (id, author, title) = (story as u64, shape.author(story) as u64, shape.title(story));
            let code = unsafe { (self.api.story)(session, id, author, title.as_ptr(), title.len() as u64) };
            assert_eq!(code, 0, "a story is refused");
        }
    }

    fn load_votes(&mut self, votes: &[u32]) {
        let mut session = self.session(0);
        for (id, &story) in votes.iter().enumerate() {
            session.vote(id as u64, story);
        }
        drop(session);
        self.drain();
    }

    fn session(&self, number: usize) -> Box<dyn Session + '_> {
        Box::new(NoriaSession { api: &self.api, session: Handle(self.handle(number)) })
    }

    fn drain(&self) {
        assert_eq!(unsafe { (self.api.fence)(self.handle(0)) }, 0, "a fence is refused");
    }
}

struct NoriaSession<'a> {
    api: &'a Api,
    session: Handle,
}

/// One row of an answer is put behind the others. `sink` is their list, and the text is UTF-8.
unsafe extern "C" fn add_row(sink: Ptr, story: u64, author: u64, title: *const u8, length: u64, votes: u64) {
    let rows = &mut *(sink as *mut Vec<Row>);
    let title = String::from_utf8_unchecked(from_raw_parts(title, length as usize).to_vec());
    rows.push(Row { story, author, title, votes });
}

impl Session for NoriaSession<'_> {
    fn vote(&mut self, id: u64, story: u32) {
        let code = unsafe { (self.api.vote)(self.session.0, id, story as u64, 1) };
        assert_eq!(code, 0, "a vote is refused");
    }

    fn read(&mut self, author: u32) -> Vec<Row> {
        let mut rows: Vec<Row> = Vec::with_capacity(4);
        let sink = &mut rows as *mut Vec<Row> as Ptr;
        let code = unsafe { (self.api.read)(self.session.0, author as u64, sink, add_row) };
        assert!(code >= 0, "a read is refused");
        rows
    }
}
