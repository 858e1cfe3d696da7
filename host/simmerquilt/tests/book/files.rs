//! Books in files: whole or not at all.
use simmerquilt::{Book, BookRefusal};
use std::fs;
use std::io::ErrorKind;
use std::path::{Path, PathBuf};
use std::process;
use std::sync::atomic::{AtomicBool, Ordering};
use std::thread;

/// An empty folder of the test's own.
fn folder(test: &str) -> PathBuf {
    let folder = Path::new(env!("CARGO_TARGET_TMPDIR")).join(format!("{test}-{}", process::id()));
    let _ = fs::remove_dir_all(&folder);
    fs::create_dir_all(&folder).unwrap();
    folder
}

fn files(folder: &Path) -> Vec<String> {
    let mut names: Vec<String> =
        fs::read_dir(folder).unwrap().map(|entry| entry.unwrap().file_name().into_string().unwrap()).collect();
    names.sort();
    names
}

fn book(records: u64) -> Book {
    let mut book = Book::new(Some(4)).unwrap();
    for station in 0..records {
        book.add(station * 7, format!("Gauge {station}")).unwrap();
    }
    book
}

#[test]
fn what_is_saved_is_loaded() {
    let folder = folder("saved");
    let path = folder.join("gauges.book");
    for records in [0, 300, 3] {
        // Over the file that the turn before has left.
        book(records).save(&path).unwrap();
        assert_eq!(Book::load(&path).unwrap(), book(records));
        assert_eq!(fs::read(&path).unwrap(), book(records).as_bytes());
        assert_eq!(files(&folder), ["gauges.book"]);
    }
    fs::remove_dir_all(folder).unwrap();
}

#[test]
fn a_loaded_book_is_gone_on() {
    let folder = folder("gone-on");
    let path = folder.join("gauges.book");
    book(40).save(&path).unwrap();
    let mut loaded = Book::load(&path).unwrap();
    assert_eq!(loaded.add(39 * 7, "Gauge 40"), Err(BookRefusal::NotRising));
    loaded.add(40 * 7, "Gauge 40").unwrap();
    assert_eq!(loaded, book(41));
    fs::remove_dir_all(folder).unwrap();
}

#[test]
fn a_stored_book_of_edition_1_is_gone_on_under_it() {
    let folder = folder("older");
    let path = folder.join("gauges.book");
    fs::write(&path, [1, 1, 5]).unwrap();
    for station in [3, 10] {
        let mut loaded = Book::load(&path).unwrap();
        loaded.add(station, "Van Chi").unwrap();
        loaded.save(&path).unwrap();
    }
    let loaded = Book::load(&path).unwrap();
    assert_eq!((loaded.edition(), loaded.len()), (1, 2));
    assert!(loaded.records().all(|record| record.primary == b"FNX" && record.alternate == b"FNK"));
    fs::remove_dir_all(folder).unwrap();
}

#[test]
fn a_closed_station_is_closed_in_its_file() {
    let folder = folder("closed");
    let path = folder.join("gauges.book");
    book(40).save(&path).unwrap();
    let mut loaded = Book::load(&path).unwrap();
    loaded.close(7).unwrap();
    loaded.save(&path).unwrap();
    let mut again = Book::load(&path).unwrap();
    assert_eq!((again.len(), again.live()), (40, 39));
    assert_eq!(again.close(7), Err(BookRefusal::NotLive));
    assert_eq!(again, loaded);
    fs::remove_dir_all(folder).unwrap();
}

#[test]
fn a_damaged_file_is_told() {
    let folder = folder("damaged");
    let path = folder.join("gauges.book");
    fs::write(&path, [1, 3, 0]).unwrap();
    let error = Book::load(&path).unwrap_err();
    assert_eq!(error.kind(), ErrorKind::InvalidData);
    assert_eq!(error.get_ref().unwrap().downcast_ref(), Some(&BookRefusal::Unknown));
    assert_eq!(Book::load(folder.join("none.book")).unwrap_err().kind(), ErrorKind::NotFound);
    fs::remove_dir_all(folder).unwrap();
}

#[test]
fn a_failing_save_leaves_what_was_there() {
    let folder = folder("failing");
    // No such folder: nothing can be made in it.
    assert_eq!(book(2).save(folder.join("none/gauges.book")).unwrap_err().kind(), ErrorKind::NotFound);
    assert_eq!(files(&folder), Vec::<String>::new());
    // A folder under the file's name: the book is written and cannot take the name.
    let taken = folder.join("gauges.book");
    fs::create_dir(&taken).unwrap();
    fs::write(taken.join("old"), "old").unwrap();
    assert!(book(2).save(&taken).is_err());
    assert_eq!(fs::read(taken.join("old")).unwrap(), b"old");
    assert_eq!(files(&folder), ["gauges.book"]);
    // No file at all.
    assert_eq!(book(2).save("/").unwrap_err().kind(), ErrorKind::InvalidInput);
    fs::remove_dir_all(folder).unwrap();
}

#[test]
fn what_another_save_left_behind_is_left_alone() {
    let folder = folder("left-behind");
    let left: Vec<String> = (0..2000).map(|number| format!(".simmerquilt-{}-{number}.tmp", process::id())).collect();
    for name in &left {
        fs::write(folder.join(name), "half").unwrap();
    }
    book(5).save(folder.join("gauges.book")).unwrap();
    assert_eq!(Book::load(folder.join("gauges.book")).unwrap(), book(5));
    assert!(left.iter().all(|name| fs::read(folder.join(name)).unwrap() == b"half"));
    assert_eq!(files(&folder).len(), left.len() + 1);
    fs::remove_dir_all(folder).unwrap();
}

#[test]
fn who_loads_while_others_save_sees_a_whole_book() {
    let folder = folder("at-once");
    let path = folder.join("gauges.book");
    let books = [book(10), book(2000)];
    books[0].save(&path).unwrap();
    let done = AtomicBool::new(false);
    thread::scope(|scope| {
        let savers = books.each_ref().map(|book| {
            let path = &path;
            scope.spawn(move || (0..40).for_each(|_| book.save(path).unwrap()))
        });
        let reader = scope.spawn(|| {
            while !done.load(Ordering::Relaxed) {
                assert!(books.contains(&Book::load(&path).unwrap()));
            }
        });
        savers.into_iter().for_each(|saver| saver.join().unwrap());
        done.store(true, Ordering::Relaxed);
        reader.join().unwrap();
    });
    assert_eq!(files(&folder), ["gauges.book"]);
    fs::remove_dir_all(folder).unwrap();
}
