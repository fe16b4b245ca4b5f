//! Files and equations for the tests, over the second program's drafts.
use reference::draft::Draft;
use reference::generator::relation;
use reference::header::{items, UPLOAD_TIME};

/// Puts an item ahead of upload_time.
pub fn put_ahead(draft: &mut Draft, id: u16, data: &[u8]) {
    let place = draft.place(UPLOAD_TIME).expect("upload_time");
    draft.items.insert(place, (id, data.to_vec()));
}

/// Where the data of upload_time stand in a file.
pub fn upload_time_at(file: &[u8]) -> usize {
    let found = items(file).into_iter().find(|item| item.id == UPLOAD_TIME);
    found.expect("upload_time").at
}

/// upload_time > t
pub fn after(t: u32) -> Vec<u8> {
    relation(0x90, UPLOAD_TIME, &t.to_le_bytes())
}
