//! Brute force held to itself: two ways to the same images, the chain beside the whole group, the reader beside the writer,
//! lines beside questions.

use brute::calls::CALLS;
use brute::chance::Chance;
use brute::edges::{known_swaps, longest};
use brute::group::{class_by_members, folded, images_by_swaps, moved, packed, product, products, Budget, Chain};
use brute::line::{asked, name, question};
use brute::questions::Run;
use brute::shapes;
use brute::sheet::{read, LONGEST};

/// What is written is read back, and the longest sheet is as long as docs/SHEET.md says.
#[test]
fn reads_what_is_written() {
    let mut chance = Chance::new(1);
    for _ in 0..2_000 {
        let sheet = shapes::sheet(&mut chance, 1_000_000);
        assert_eq!(read(&sheet.written()), Ok(sheet));
    }
    let sheet = longest(&mut chance);
    assert_eq!(sheet.written().len(), LONGEST);
    assert_eq!(read(&sheet.written()), Ok(sheet));
}

/// Every member applied to a row, and the swaps applied over and over, give the same images.
#[test]
fn images_agree() {
    let mut chance = Chance::new(2);
    for _ in 0..2_000 {
        let sheet = shapes::sheet(&mut chance, 1_000_000);
        let Some(members) = products(sheet.carriers, &sheet.swaps, 800) else { continue };
        let row: Vec<u8> = sheet.lists.iter().map(|list| *chance.one(list)).collect();
        let class = class_by_members(&members, packed(&row), row.len());
        let images = images_by_swaps(&sheet.swaps, packed(&row), row.len(), &mut Budget(1 << 30)).unwrap();
        assert_eq!((class.first, class.size), (*images.iter().min().unwrap(), images.len() as u64));
        let (first, size, member) = folded(sheet.carriers, &sheet.swaps, &row, &mut Budget(1 << 30)).unwrap();
        assert_eq!((packed(&first), size), (class.first, class.size));
        assert_eq!(moved(&member, packed(&row), row.len()), class.first);
        assert!(members.contains(&member));
    }
}

/// The chain has exactly the members of the group, and its orbit lengths multiply to their number.
#[test]
fn chain_agrees() {
    let mut chance = Chance::new(3);
    for _ in 0..2_000 {
        let carriers = chance.between(1, 7);
        let swaps = shapes::swaps(&mut chance, carriers);
        let members = products(carriers, &swaps, 5_040).unwrap();
        let chain = Chain::new(carriers, &swaps);
        assert_eq!(chain.orbit_lengths().iter().product::<usize>(), members.len());
        let candidate = chance.order(carriers);
        assert_eq!(chain.has(&candidate), members.contains(&candidate));
        assert!(members.iter().take(50).all(|member| chain.has(member)));
        let last = &members[members.len() - 1];
        assert!(chain.has(&product(last, last)));
    }
}

/// The known groups have their known orders.
#[test]
fn orders_are_known() {
    let mut chance = Chance::new(4);
    let mut orders: Vec<usize> = Vec::new();
    for _ in 0..100 {
        let swaps = known_swaps(&mut chance);
        orders.push(Chain::new(swaps[0].len(), &swaps).orbit_lengths().iter().product());
    }
    orders.sort_unstable();
    orders.dedup();
    assert_eq!(orders, [56, 168, 7_920, 95_040]);
}

/// Each line that can be read is what its question is asked by; each call is asked, and is known by a name and a kind of its own.
#[test]
fn lines_are_read_back() {
    let mut run = Run::new(5, &[]).unwrap();
    let mut names: Vec<&str> = Vec::new();
    for _ in 0..2_000 {
        let line = run.line();
        let Ok(question) = question(&line) else { continue };
        assert_eq!(asked(name(&line), &question), line);
        names.push(question.asked().call().name);
    }
    for call in CALLS {
        assert!(names.contains(&call.name), "nothing asks {}", call.name);
        assert_eq!(CALLS.iter().filter(|other| other.name == call.name || other.kind == call.kind).count(), 1);
    }
}
