//! Listings: our page as the part of our whole listing that it has to be, our whole listing as the other side's set.

use super::{Divergence, Pairing, What};
use crate::side::{Dirent, Page, Standing};
use std::collections::BTreeSet;

/// The bytes of a dirent with a name: 24, the name, zeros to a multiple of 8.
fn dirent_bytes(name: &[u8]) -> u64 {
    24 + name.len().next_multiple_of(8) as u64
}

/// Document 01's page: the entries from the offset on, as long as the next fits.
pub fn page_of(whole: &[Dirent], offset: u64, size: u64, buffer: usize) -> Page {
    if size == 0 {
        return Page::default();
    }
    let rest = usize::try_from(offset).ok().and_then(|offset| whole.get(offset..)).unwrap_or(&[]);
    let mut room = size.min(buffer as u64);
    let fitting = rest.iter().take_while(|d| {
        let fits = dirent_bytes(&d.name) <= room;
        room = room.saturating_sub(dirent_bytes(&d.name));
        fits
    });
    let entries: Vec<Dirent> = fitting.cloned().collect();
    Page { remains: entries.len() < rest.len(), entries, spilled: false }
}

/// "." and ".." first, then names in byte order, each once; offsets count from 1.
fn in_order(whole: &[Dirent]) -> bool {
    let named = whole.len() >= 2 && whole[0].name == b"." && whole[1].name == b"..";
    let rising = whole.iter().skip(2).zip(whole.iter().skip(3)).all(|(a, b)| a.name < b.name);
    named && rising && whole.iter().zip(1..).all(|(d, offset)| d.offset == offset)
}

/// Entries in short: name, inode and type.
fn words(entries: &[Dirent]) -> String {
    let said: Vec<String> = entries.iter().map(|d| format!("{} {} {}", overlay::text::name(&d.name), d.inode, d.kind)).collect();
    format!("[{}]", said.join(", "))
}

fn page_words(page: &Page, expected: &Page) -> String {
    let said = |p: &Page| {
        let remains = if p.remains { ", entries remain" } else { "" };
        format!("{}{remains}{}", words(&p.entries), if p.spilled { ", and bytes that are no entry's" } else { "" })
    };
    format!("the page has {}; that part of our whole listing is {}", said(page), said(expected))
}

/// Our page is its part of our whole listing, and that is in order.
pub fn compare_page(page: &Page, whole: &[Dirent], offset: u64, size: u64, buffer: usize) -> Result<(), Divergence> {
    let expected = page_of(whole, offset, size, buffer);
    if *page != expected {
        return Err(Divergence::new(What::Page, page_words(page, &expected)));
    }
    if size > 0 && !in_order(whole) {
        return Err(Divergence::new(What::Listing, format!("our whole listing is not in order: {}", words(whole))));
    }
    Ok(())
}

/// Our whole listing and the other side's as sets. An inode is the top record's number, so the node's stack says how it is renamed.
pub fn compare_whole(node: u64, whole: &[Dirent], rust: &[Dirent], ours: &Standing, pairing: &Pairing) -> Result<(), Divergence> {
    let renamed = |d: &Dirent| {
        let number = child(ours, node, &d.name)?;
        let (layer, _) = *ours.nodes.get(&number)?.stack.first()?;
        let (_, record) = pairing.of((layer, u8::try_from(d.inode).ok()?));
        Some((d.name.clone(), u64::from(record), d.kind))
    };
    let here: BTreeSet<_> = whole.iter().map(|d| renamed(d).unwrap_or((d.name.clone(), u64::MAX, d.kind))).collect();
    let there: BTreeSet<_> = rust.iter().map(|d| (d.name.clone(), d.inode, d.kind)).collect();
    if here == there && whole.len() == rust.len() {
        return Ok(());
    }
    Err(Divergence::new(What::Listing, format!("{} here, {} there", words(whole), words(rust))))
}

/// The node that an entry of the listing stands for.
fn child(ours: &Standing, node: u64, name: &[u8]) -> Option<u64> {
    match name {
        b"." => Some(node),
        b".." => Some(ours.above(node).unwrap_or(node)),
        _ => ours.nodes.get(&node)?.child(name),
    }
}

#[cfg(test)]
mod tests {
    use super::*;

    fn dirent(name: &[u8], offset: u64) -> Dirent {
        Dirent { name: name.to_vec(), inode: 1, offset, kind: 4 }
    }

    #[test]
    fn the_whole_case_of_01() {
        let whole = [dirent(b".", 1), dirent(b"..", 2), dirent(b"k", 3)];
        for (size, entries, remains) in [(31, 0, true), (32, 1, true), (63, 1, true), (64, 2, true), (96, 3, false)] {
            let page = page_of(&whole, 0, size, 96);
            assert_eq!((page.entries.len(), page.remains), (entries, remains), "size {size}");
        }
        assert_eq!(page_of(&whole, 0, 0, 96), Page::default(), "size 0 has nothing, and nothing remains");
        assert_eq!(page_of(&whole, 0, 96, 64).entries.len(), 2, "a small buffer cuts a large size");
        assert_eq!(page_of(&whole, 3, 96, 96), Page::default(), "an offset at the count");
        assert_eq!(page_of(&whole, u64::MAX, 96, 96), Page::default(), "an offset past the count");
    }

    #[test]
    fn order() {
        assert!(in_order(&[dirent(b".", 1), dirent(b"..", 2), dirent(b"a", 3), dirent(b"ab", 4)]));
        assert!(!in_order(&[dirent(b".", 1), dirent(b"..", 2), dirent(b"ab", 3), dirent(b"a", 4)]), "a prefix comes first");
        assert!(!in_order(&[dirent(b".", 1), dirent(b"..", 2), dirent(b"a", 4)]), "offsets count on");
        assert!(!in_order(&[dirent(b".", 1)]));
    }
}
