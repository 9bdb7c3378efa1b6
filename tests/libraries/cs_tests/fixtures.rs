// Fixtures of several modules; those of several crates are in `cs_fakes`.
use cs_fakes::{Files, Item, MemTree, PutFault};
use std::alloc::{AllocError, Global};

/// The bytes of a text.
pub fn bytes_of(alloc: Global, text: &str) -> Result<Vec<u8>, AllocError> {
    Vec::from_slice(alloc, text.as_bytes())
}

/// The texts, each followed by a space.
pub fn spaced(alloc: Global, texts: &[String]) -> Result<String, AllocError> {
    let mut all = String::new(alloc);
    for text in texts {
        all.push_str(text.as_str())?;
        all.push(' ')?;
    }
    Ok(all)
}

/// Random bytes from 0x21 to 0x7e; every eightieth byte is a newline.
pub fn by_chance(alloc: Global, count: usize) -> Result<Vec<u8>, AllocError> {
    let mut file = Vec::new(alloc);
    let mut state = 1u32;
    for at in 0..count {
        state = state.wrapping_mul(1_103_515_245).wrapping_add(12_345);
        let byte = if at % 80 == 79 {
            b'\n'
        } else {
            b'!' + ((state >> 16) % 94) as u8
        };
        file.push(byte)?;
    }
    Ok(file)
}

/// A tree with a folder of files with these bytes.
pub fn tree_of(alloc: Global, folder: &str, files: Files<'_>) -> Result<MemTree, PutFault> {
    let mut tree = MemTree::new(alloc, 4)?;
    tree.put(folder, Item::Folder)?;
    for (name, bytes) in files {
        tree.put(*name, Item::File(Vec::from_slice(alloc, *bytes)?))?;
    }
    Ok(tree)
}
