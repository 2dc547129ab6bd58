//! The profile's host example, the other examples beside it, and limits at their edges, through the
//! calls.

mod pack;

use merger::{
    batch, check_event, check_table, combine, hash, hash_text, open, report, value, Limits, Opened,
    Question, Refusal, DOSSIER_ROOM, HASH_ROOM, HASH_TEXT_ROOM, REPORT_ROOM,
};
use pack::{
    event, input, single, table, Property, ADD, ANY, DATETIME, MATCH, MAX, MIN, REPLACE, SEQUENCE,
    STRING_20, STRING_40,
};

const STATE: usize = 3;
const TAGS: usize = 4;

/// The sticky hash of E1 to E4, as the profile has it.
const HASH: &str = "b577ea6df228b2aedfe38752fcbe01b472abcf14";

/// The table, and E1 to E4.
struct Host {
    table: Vec<u8>,
    events: [Vec<u8>; 4],
}

fn host() -> Host {
    let early = "2024-03-01T09:00:00.500000Z";
    let late = "2024-03-01T10:00:00Z";
    Host {
        table: host_table(),
        events: [
            host_event("1", late, &["up"], "a"),
            host_event("2", early, &[], "b"),
            host_event("2", early, &[], "c"),
            host_event("1", late, &["down"], "a"),
        ],
    }
}

fn host_table() -> Vec<u8> {
    let addr = Property {
        multivalued: true,
        ..single("addr", STRING_40, MATCH)
    };
    let state = Property {
        optional: true,
        ..single("state", STRING_20, REPLACE)
    };
    let tags = Property {
        optional: true,
        multivalued: true,
        ..single("tags", STRING_20, ADD)
    };
    let rev = single("rev", SEQUENCE, MAX);
    let seen = single("seen", DATETIME, MAX);
    table("net.host", 2, &[addr, rev, seen, state, tags])
}

fn host_event(rev: &str, seen: &str, state: &[&str], tag: &str) -> Vec<u8> {
    event("net.host", &[&["h1"], &[rev], &[seen], state, &[tag]])
}

/// What E1 and E2 merge to.
fn merged_host() -> Vec<u8> {
    let seen = "2024-03-01T10:00:00Z";
    event("net.host", &[&["h1"], &["2"], &[seen], &[], &["a", "b"]])
}

/// An opened dossier that owns its merged event.
#[derive(Debug, PartialEq)]
enum Answer {
    Merged(Vec<u8>),
    Conflict(u64, usize),
    Overfull(usize),
}

/// Checks the events, combines the dossiers from the left, and opens the last one.
fn merge(table: &[u8], events: &[&Vec<u8>]) -> Result<Answer, Refusal> {
    merge_within(Limits::default(), table, events)
}

fn merge_within(limits: Limits, table: &[u8], events: &[&Vec<u8>]) -> Result<Answer, Refusal> {
    let (first, others) = events.split_first().expect("an event");
    let mut dossier = checked(table, first)?;
    for event in others {
        let mut out = vec![0xEE; DOSSIER_ROOM];
        let other = checked(table, event)?;
        dossier = combine(limits, table, &dossier, &other, &mut out)?.to_vec();
    }
    opened(limits, table, &dossier)
}

fn checked(table: &[u8], event: &[u8]) -> Result<Vec<u8>, Refusal> {
    let mut out = vec![0xEE; DOSSIER_ROOM];
    check_event(table, event, &mut out).map(<[u8]>::to_vec)
}

fn opened(limits: Limits, table: &[u8], dossier: &[u8]) -> Result<Answer, Refusal> {
    let mut out = vec![0xEE; DOSSIER_ROOM];
    Ok(match open(limits, table, dossier, &mut out)? {
        Opened::Merged(event) => Answer::Merged(event.to_vec()),
        Opened::Conflict { version, place } => Answer::Conflict(version, place),
        Opened::Overfull { place } => Answer::Overfull(place),
    })
}

fn batched(limits: Limits, table: &[u8], events: &[&Vec<u8>]) -> Result<Vec<u8>, Refusal> {
    let mut out = vec![0xEE; DOSSIER_ROOM];
    let mut scratch = [(); 3].map(|()| vec![0xEE; DOSSIER_ROOM]);
    let scratch = scratch.each_mut().map(Vec::as_mut_slice);
    batch(limits, table, &pack::batch(events), &mut out, scratch).map(<[u8]>::to_vec)
}

fn refused(question: Question) -> Refusal {
    Refusal {
        question,
        position: 0,
    }
}

/// Every order of `items`.
fn orders<T: Clone>(items: &[T]) -> Vec<Vec<T>> {
    if items.is_empty() {
        return vec![vec![]];
    }
    let begin_with = |first: usize| {
        let mut others = items.to_vec();
        let first = others.remove(first);
        orders(&others)
            .into_iter()
            .map(move |rest| [vec![first.clone()], rest].concat())
    };
    (0..items.len()).flat_map(begin_with).collect()
}

#[test]
fn one_event_opens_as_itself() {
    let Host { table, events } = host();
    assert_eq!(check_table(&table), Ok(()));
    for event in &events {
        assert_eq!(merge(&table, &[event]), Ok(Answer::Merged(event.clone())));
    }
}

#[test]
fn two_versions_merge_in_any_order_and_number() {
    let Host {
        table,
        events: [e1, e2, ..],
    } = host();
    let merged = Ok(Answer::Merged(merged_host()));
    assert_eq!(merge(&table, &[&e1, &e2]), merged);
    for order in orders(&[&e1, &e2, &e2]) {
        assert_eq!(merge(&table, &order), merged);
    }
}

#[test]
fn conflicts_name_the_lowest_version() {
    let Host {
        table,
        events: [e1, e2, e3, e4],
    } = host();
    for order in orders(&[&e1, &e2, &e3]) {
        assert_eq!(merge(&table, &order), Ok(Answer::Conflict(2, TAGS)));
    }
    for order in orders(&[&e1, &e2, &e3, &e4]) {
        assert_eq!(merge(&table, &order), Ok(Answer::Conflict(1, STATE)));
    }
}

#[test]
fn a_batch_gives_the_dossier_of_its_events() {
    let Host {
        table,
        events: [e1, e2, ..],
    } = host();
    let dossier = batched(Limits::default(), &table, &[&e1, &e2, &e2]).unwrap();
    assert_eq!(
        opened(Limits::default(), &table, &dossier),
        Ok(Answer::Merged(merged_host()))
    );
}

#[test]
fn the_hash_text_is_that_of_each_event() {
    let Host {
        table,
        events: [e1, ..],
    } = host();
    let mut out = [0xEE; HASH_TEXT_ROOM];
    for event in [e1, merged_host()] {
        let text = hash_text(&table, &event, &mut out).unwrap();
        assert_eq!(text, b"/lab/\nnet.host\naddr:h1");
        assert!(out[22..].iter().all(|byte| *byte == 0xEE));
    }
}

#[test]
fn match_objects_sort_as_whole_strings() {
    let ip = single("ip", STRING_20, MATCH);
    let alt = single("ip.alt", STRING_20, MATCH);
    let table = table("net.link", 0, &[ip, alt]);
    let event = event("net.link", &[&["a"], &["z"]]);
    let mut out = [0xEE; HASH_TEXT_ROOM];
    let text = hash_text(&table, &event, &mut out).unwrap();
    assert_eq!(text, b"/lab/\nnet.link\nip.alt:z\xFF\xFF\xFF\xFFip:a");
}

#[test]
fn a_value_is_the_events_own_bytes() {
    let Host {
        table,
        events: [e1, ..],
    } = host();
    let state = value(&table, &e1, STATE, 0).unwrap();
    assert_eq!(state, b"up");
    assert!(e1.as_ptr_range().contains(&state.as_ptr()));
    assert_eq!(value(&table, &e1, STATE, 1), None);
    assert_eq!(value(&table, &e1, usize::MAX, 0), None);
    assert_eq!(value(&table, &e1[1..], STATE, 0), None);
}

#[test]
fn a_fraction_is_later_than_its_whole_second() {
    let [whole, fraction] = ["2024-03-01T10:00:21Z", "2024-03-01T10:00:21.500000Z"];
    for (strategy, chosen) in [(MIN, whole), (MAX, fraction)] {
        let table = table("a", 0, &[single("at", DATETIME, strategy)]);
        let [whole, fraction, chosen] = [whole, fraction, chosen].map(|at| event("a", &[&[at]]));
        for order in orders(&[&whole, &fraction]) {
            assert_eq!(merge(&table, &order), Ok(Answer::Merged(chosen.clone())));
        }
    }
}

#[test]
fn value_spaces_end_where_the_profile_says() {
    let spaces: [(&[u8], &[&str], &[&str]); 4] = [
        (&[2, 1], &["-128"], &["-129", "-0"]),
        (&[1, 3], &["16777215"], &["16777216"]),
        (&[3, 7, 2, 1], &["12345.60"], &["123456.00", "0.5", "-0.00"]),
        (
            DATETIME,
            &["2000-02-29T00:00:00Z"],
            &["1900-02-29T00:00:00Z"],
        ),
    ];
    for (kind, inside, outside) in spaces {
        let table = table("a", 0, &[single("b", kind, ANY)]);
        let check = |value: &str| checked(&table, &event("a", &[&[value]])).map(|_| ());
        for value in inside {
            assert_eq!(check(value), Ok(()), "{value}");
        }
        for value in outside {
            assert_eq!(check(value), Err(refused(Question::Values)), "{value}");
        }
    }
}

fn printed(table: &[u8], events: &[&Vec<u8>]) -> String {
    let mut out = vec![0xEE; REPORT_ROOM];
    let lines = report(&input(table, events), &mut out).unwrap();
    String::from_utf8(lines.to_vec()).unwrap()
}

#[test]
fn the_report_prints_what_the_batch_opens_as() {
    let Host {
        table,
        events: [e1, e2, e3, e4],
    } = host();
    let mut digest = [0; HASH_ROOM];
    hash(&table, &e1, &mut digest).unwrap();
    let digits: String = digest.iter().map(|byte| format!("{byte:02x}")).collect();
    assert_eq!(digits, HASH);
    let merged = "merged 5\naddr:h1\nrev:2\nseen:2024-03-01T10:00:00Z\ntags:a\ntags:b\nhash ";
    assert_eq!(printed(&table, &[&e1, &e2]), format!("{merged}{HASH}\n"));
    assert_eq!(printed(&table, &[&e2, &e1, &e3]), "conflict 2 tags\n");
    assert_eq!(printed(&table, &[&e3, &e4, &e1, &e2]), "conflict 1 state\n");
}

#[test]
fn the_report_names_an_overfull_property_and_a_refusal() {
    let key = single("key", STRING_20, MATCH);
    let serial = single("serial", STRING_20, ANY);
    let table = table("part", 0, &[key, serial]);
    let [a1, a2, b1] = [["a", "1"], ["a", "2"], ["b", "1"]]
        .map(|[key, serial]| event("part", &[&[key], &[serial]]));
    assert_eq!(merge(&table, &[&a1, &a2]), Ok(Answer::Overfull(1)));
    assert_eq!(printed(&table, &[&a1, &a2]), "overfull serial\n");
    assert_eq!(printed(&table, &[&a1, &b1]), "refused 7 1\n");
}

#[test]
fn a_refusal_leaves_the_output_and_says_why_in_words() {
    let Host {
        table,
        events: [e1, ..],
    } = host();
    let mut out = [0xEE; DOSSIER_ROOM];
    let refusal = check_event(&table, &e1[1..], &mut out).unwrap_err();
    assert_eq!(
        refusal.to_string(),
        "refused, no to question 3: does the input read by its layout to its exact end?"
    );
    assert!(out.iter().all(|byte| *byte == 0xEE));
    let small = check_event(&table, &e1, &mut out[1..]).unwrap_err();
    assert_eq!(small, refused(Question::Room));
}

#[test]
fn a_report_asks_for_its_room() {
    let Host { table, events } = host();
    let mut out = [0xEE; REPORT_ROOM - 1];
    let small = report(&input(&table, &[&events[0]]), &mut out).unwrap_err();
    assert_eq!(small, refused(Question::Room));
    assert!(out.iter().all(|byte| *byte == 0xEE));
}

#[test]
fn a_refusal_of_a_batch_names_the_position() {
    let refusal = Refusal {
        question: Question::Type,
        position: 1,
    };
    assert_eq!(
        refusal.to_string(),
        "refused, no to question 4: has the table the input's type? (position 1, from 0)"
    );
}

#[test]
fn limits_outside_their_ranges_are_refused_before_all_else() {
    let Host {
        table,
        events: [e1, ..],
    } = host();
    let refusal = Err(refused(Question::Parameters));
    for limits in outside() {
        let mut small = [0xEE];
        assert_eq!(combine(limits, &table, &e1, &e1, &mut small), refusal);
        assert_eq!(
            open(limits, &table, &e1, &mut small).map(|_| &[][..]),
            refusal
        );
        assert_eq!(small, [0xEE]);
        assert_eq!(batched(limits, &table, &[]), refusal.map(<[u8]>::to_vec));
    }
    assert_eq!(
        refused(Question::Parameters).to_string(),
        "refused, no to question 18: are the limits in their ranges, 1 to 8 event versions, \
         8 to 32 parents and 32 to 256 objects?"
    );
}

/// Limits of which one is outside its range, by one.
fn outside() -> Vec<Limits> {
    let profile = Limits::default();
    let versions = [0, 9].map(|versions| Limits {
        versions,
        ..profile
    });
    let parents = [7, 33].map(|parents| Limits { parents, ..profile });
    let objects = [31, 257].map(|objects| Limits { objects, ..profile });
    [versions, parents, objects].concat()
}

#[test]
fn a_limit_of_event_versions_is_kept() {
    let Host {
        table,
        events: [e1, e2, ..],
    } = host();
    let [one, two] = [1, 2].map(|versions| Limits {
        versions,
        ..Limits::default()
    });
    let both = batched(Limits::default(), &table, &[&e1, &e2]).unwrap();
    assert_eq!(batched(two, &table, &[&e1, &e2]), Ok(both.clone()));
    assert_eq!(
        opened(two, &table, &both),
        Ok(Answer::Merged(merged_host()))
    );
    let passed = refused(Question::Limits);
    assert_eq!(batched(one, &table, &[&e1, &e2]), Err(passed));
    assert_eq!(merge_within(one, &table, &[&e1, &e2]), Err(passed));
    assert_eq!(opened(one, &table, &both), Err(refused(Question::Layout)));
}

#[test]
fn a_limit_of_objects_is_kept() {
    let notes = Property {
        multivalued: true,
        ..single("notes", STRING_20, ADD)
    };
    let table = table("log", 0, &[notes]);
    let all: Vec<_> = (10..43).map(|note| note.to_string()).collect();
    let all: Vec<_> = all.iter().map(String::as_str).collect();
    let [first, second] = [&all[..20], &all[20..]].map(|notes| event("log", &[notes]));
    let [less, enough] = [32, 33].map(|objects| Limits {
        objects,
        ..Limits::default()
    });
    let both = batched(Limits::default(), &table, &[&first, &second]).unwrap();
    let merged = Ok(Answer::Merged(event("log", &[&all])));
    assert_eq!(merge_within(enough, &table, &[&first, &second]), merged);
    let passed = refused(Question::Limits);
    assert_eq!(merge_within(less, &table, &[&first, &second]), Err(passed));
    assert_eq!(opened(less, &table, &both), Err(refused(Question::Shape)));
}
