//! Tests that share a fixture: each begins with the same library, which is its own.

use lending::{fixture, give_back, give_back_all, lend, overdue, Overdue, Refusal};

#[test]
fn a_book_that_is_out_is_not_lent() {
    let db = fixture::library().unwrap();
    assert_eq!(lend(&db, 1, "Bo O'Hara", 200), Ok(Err(Refusal::IsOut)));
    assert!(give_back(&db, 1).unwrap());
    assert_eq!(lend(&db, 1, "Bo O'Hara", 200), Ok(Ok(())));
}

#[test]
fn a_book_is_given_back_once() {
    let db = fixture::library().unwrap();
    assert!(give_back(&db, 4).unwrap());
    assert!(!give_back(&db, 4).unwrap());
    assert!(!give_back(&db, 3).unwrap());
}

#[test]
fn many_books_are_given_back() {
    let db = fixture::library().unwrap();
    assert_eq!(give_back_all(&db, &[1, 3, 4, 1]), Ok(2));
    assert_eq!(give_back_all(&db, &[]), Ok(0));
    assert_eq!(db.dump("loan").unwrap().len(), 1);
}

#[test]
fn strangers_and_unknown_books() {
    let db = fixture::library().unwrap();
    let before = db.dump("loan").unwrap();
    assert_eq!(lend(&db, 3, "Eve", 200), Ok(Err(Refusal::Unknown)));
    assert_eq!(lend(&db, 9, "Ann", 200), Ok(Err(Refusal::Unknown)));
    assert_eq!(lend(&db, 3, "Ann', 0)", 200), Ok(Err(Refusal::Unknown)));
    assert_eq!(db.dump("loan").unwrap(), before);
}

#[test]
fn what_is_overdue() {
    let db = fixture::library().unwrap();
    let out = |title: &str, mail: &str, due: u32| Overdue {
        title: title.to_string(),
        mail: mail.to_string(),
        due,
    };
    let ann = "ann@example.org";
    assert_eq!(overdue(&db, 90).unwrap(), []);
    assert_eq!(
        overdue(&db, 101).unwrap(),
        [out("Middlemarch", ann, 100), out("1984", ann, 90)]
    );
    let of_bo = out("Tinker, Tailor, Soldier, Spy", "bo@example.org", 140);
    assert_eq!(overdue(&db, 141).unwrap()[1], of_bo);
}
