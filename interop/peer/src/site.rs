//! The files of a server, and what its pages report.

use bytes::Bytes;
use std::cell::RefCell;
use std::collections::HashMap;
use std::path::{Component, Path, PathBuf};
use tokio::sync::Notify;

/// A file with its media type.
#[derive(Clone)]
pub struct File {
    pub media_type: &'static str,
    pub content: Bytes,
}

pub struct Site {
    folder: PathBuf,
    files: RefCell<HashMap<String, File>>,
    /// Wakes those who wait for the report of a page.
    reported: Notify,
}

impl Site {
    pub fn new(folder: PathBuf) -> Self {
        Self {
            folder,
            files: RefCell::default(),
            reported: Notify::new(),
        }
    }

    /// The file of a path, which is read once.
    pub fn find(&self, path: &str) -> Option<File> {
        let path = path.split(['?', '#']).next()?;
        if let Some(file) = self.files.borrow().get(path) {
            return Some(file.clone());
        }
        let name = match path.strip_prefix('/')? {
            "" => "index.html",
            name => name,
        };
        let inside = |part| matches!(part, Component::Normal(_));
        if !Path::new(name).components().all(inside) {
            return None;
        }
        let file = File {
            media_type: media_type(name),
            content: std::fs::read(self.folder.join(name)).ok()?.into(),
        };
        self.files
            .borrow_mut()
            .insert(path.to_owned(), file.clone());
        Some(file)
    }

    /// Prints the report of a page, and lets those go on who wait for it.
    pub fn report(&self, body: &[u8]) {
        println!(
            "report {}",
            String::from_utf8_lossy(body).replace('\n', " ")
        );
        self.reported.notify_one();
    }

    pub async fn until_reported(&self) {
        self.reported.notified().await;
    }
}

fn media_type(name: &str) -> &'static str {
    match name.rsplit_once('.').map(|(_, suffix)| suffix) {
        Some("html") => "text/html; charset=utf-8",
        Some("js") => "text/javascript",
        Some("json") => "application/json",
        Some("png") => "image/png",
        _ => "application/octet-stream",
    }
}
