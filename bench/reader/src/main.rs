//! usage: reader CACHE DYLIB..
use object::macho::DyldCacheHeader;
use object::read::macho::DyldCache;
use object::{Endianness, Object, ObjectSymbol};
use std::collections::BTreeSet;

/// The symbols of an object, with whether each is defined there, and the names of its exports.
fn names<'d>(object: &'d impl Object<'d, 'd>) -> (BTreeSet<(String, bool)>, BTreeSet<String>) {
    let symbols = object
        .symbols()
        .filter_map(|symbol| Some((symbol.name().ok()?.to_owned(), symbol.is_definition())))
        .collect();
    let exports = object.exports().expect("exports");
    (symbols, exports.iter().map(|export| String::from_utf8_lossy(export.name()).into_owned()).collect())
}

fn main() {
    let mut words = std::env::args().skip(1);
    let bytes = std::fs::read(words.next().expect("a cache")).expect("the cache");
    let cache = DyldCache::<Endianness>::parse(&*bytes, &[]).expect("a shared cache");
    let header = DyldCacheHeader::<Endianness>::parse(&*bytes).expect("a header");
    assert!(header.magic.starts_with(b"dyld_v1"));
    let paths: Vec<String> = words.collect();
    assert_eq!(cache.images().count(), paths.len(), "as many images as dylibs");
    for (image, path) in cache.images().zip(&paths) {
        let file = std::fs::read(path).expect("the dylib");
        let dylib = object::File::parse(&*file).expect("a Mach-O file");
        let found = image.parse_object().expect("an image of the cache");
        let (symbols, exports) = names(&found);
        assert_eq!((&symbols, &exports), (&names(&dylib).0, &names(&dylib).1), "{path}");
        println!("{}: {} symbols and {} exports, as in {path}", image.path().expect("a path"), symbols.len(), exports.len());
    }
}
