//! What is due at each record: sheet S and its neighbours by hand, and laws on generated and damaged files.

use second::damage::damaged;
use second::due::{due, dues as due_list};
use second::generate::from_seed;
use second::judge::verdict;
use second::layout::{Kind, RECORD};
use second::random::Random;
use second::sheet::{lines_s, sheet_s};

/// Sheet S with texts set at (record, column).
fn s_with(changes: &[(usize, usize, &[u8])]) -> Vec<u8> {
    let mut file = sheet_s().bytes();
    for (record, column, text) in changes {
        let at = (record - 1) * RECORD + column - 1;
        file[at..at + text.len()].copy_from_slice(text);
    }
    file
}

/// The kinds by number, from record 0 on: nothing, what is told, nothing, nothing.
#[track_caller]
fn tells(file: &[u8], told: &str) {
    let asked = 0..=told.len() as u32 + 2;
    let answers: String = asked.map(|record| due(file, record).to_string()).collect();
    assert_eq!(answers, format!("0{told}00"));
    assert_eq!(due(file, u32::MAX), 0);
}

#[test]
fn sheet_s_and_its_parts() {
    let s = sheet_s().bytes();
    tells(&s, "12345671");
    tells(&[s.clone(), s.clone()].concat(), "123456712345671");
    for records in 0..7 {
        for more in [0, 1, 73] {
            tells(&s[..records * RECORD + more], &"12345671"[..=records]);
        }
    }
    tells(&[&s[..], b"M"].concat(), "12345671");
}

#[test]
fn letters_and_line_ends_do_not_matter() {
    let letters: Vec<(usize, usize, &[u8])> = [1, 2, 3, 4, 6].map(|record| (record, 1, &b"A "[..])).to_vec();
    tells(&s_with(&letters), "12345671");
    tells(&s_with(&[(2, 1, b"H1")]), "12345671");
    let ends: Vec<(usize, usize, &[u8])> = (1..=7).map(|record| (record, 73, &b"\n\r"[..])).collect();
    tells(&s_with(&ends), "12345671");
}

/// An H1 says by its numbers what follows, as an H2 does, areas too.
#[test]
fn lines_without_areas() {
    let lines = lines_s().bytes();
    tells(&lines, "123451");
    tells(&[lines.clone(), lines.clone()].concat(), "12345123451");
    for letters in [b"H2", b"H3", b"  "] {
        let mut other = lines.clone();
        other[RECORD..RECORD + 2].copy_from_slice(letters);
        tells(&other, "123451");
    }
    tells(&s_with(&[(2, 1, b"H1"), (2, 15, b"   -2")]), "12345676");
    tells(&s_with(&[(2, 1, b"H1"), (2, 15, b"    x")]), "12345111");
    tells(&s_with(&[(1, 29, b"  2"), (2, 1, b"H1")]), "12345672");
}

#[test]
fn numbers_count_by_their_size() {
    tells(&s_with(&[(1, 29, b" -1")]), "12345671");
    tells(&s_with(&[(1, 29, b"  2")]), "12345672");
    tells(&s_with(&[(1, 29, b" -2")]), "12345672");
    tells(&s_with(&[(2, 5, b"   -1   -1   -1")]), "12345671");
    tells(&s_with(&[(2, 5, b"99999")]), "12333333");
    tells(&s_with(&[(2, 5, b"-9999")]), "12333333");
    tells(&s_with(&[(2, 15, b"   -2")]), "12345676");
    tells(&s_with(&[(4, 50, b"     1")]), "12345671");
    tells(&s_with(&[(4, 50, b"    -7")]), "12345671");
    tells(&s_with(&[(4, 50, b"999999")]), "12345555");
    tells(&s_with(&[(6, 25, b"   2")]), "12345677");
    tells(&s_with(&[(6, 25, b"  -2")]), "12345677");
    tells(&s_with(&[(7, 6, b"  12")]), "12345671");
    tells(&s_with(&[(7, 6, b"  13")]), "12345677");
    tells(&s_with(&[(7, 6, b" -13")]), "12345677");
}

/// A record that is taken for another has other numbers. So L's end link and left code are 288 layers where an M is due,
/// and A's code is 13101 nodes where an H is due.
#[test]
fn ill_formed_numbers_count_as_0() {
    for none in [b"  x", b"   ", b" -0", b"001", b"1  ", b"  0"] {
        tells(&s_with(&[(1, 29, none)]), "11112233");
    }
    tells(&s_with(&[(2, 5, b"00001")]), "12467111");
    tells(&s_with(&[(2, 5, b"    0")]), "12467111");
    tells(&s_with(&[(2, 10, b"   +1")]), "12367111");
    tells(&s_with(&[(4, 50, b"   5  ")]), "12346111");
    tells(&s_with(&[(4, 50, b"     0")]), "12346111");
    tells(&s_with(&[(6, 25, b"0001")]), "12345611");
    tells(&s_with(&[(6, 25, b"   0")]), "12345611");
    tells(&s_with(&[(7, 6, b"0013")]), "12345671");
    tells(&s_with(&[(7, 6, b"   0")]), "12345671");
}

/// A loop of 25 lines has three records. What the later ones say does not steer.
#[test]
fn the_first_record_of_a_loop_steers() {
    let mut file = s_with(&[(6, 25, b"   2"), (7, 6, b"  25")]);
    for count in [b"   1", b"  99", b"   x"] {
        let mut later = file[6 * RECORD..7 * RECORD].to_vec();
        later[5..9].copy_from_slice(count);
        file.extend(later);
    }
    tells(&file, "12345677771");
}

#[test]
fn no_record_is_looked_at_past_the_most() {
    let file = vec![0; 6_399_939 * RECORD];
    for (records, last) in [(6_399_935, 6_399_936), (6_399_936, 6_399_937), (6_399_937, 6_399_937), (6_399_939, 6_399_937)] {
        let dues = due_list(&file[..records * RECORD]);
        assert_eq!(dues.len(), last);
        assert!(dues.iter().all(|kind| *kind == Kind::M));
    }
    assert_eq!(due(&file, 6_399_936), 1);
    assert_eq!(due(&file, 6_399_937), 1);
    assert_eq!(due(&file, 6_399_938), 0);
}

#[test]
fn an_accepted_file_has_what_is_due() {
    for seed in 0..300 {
        let sheet = from_seed(seed);
        let mut kinds: Vec<Kind> = sheet.records().iter().map(|record| record.0).collect();
        kinds.push(Kind::M);
        assert_eq!(due_list(&sheet.bytes()), kinds, "{seed}");
    }
}

/// Stage 2 judges by what is due, as far as it comes. Where it comes to the end, an M is due there, or else it refuses
/// with 4. What is due depends on earlier records alone.
#[test]
fn laws_of_damaged_files() {
    let (mut late, mut cut) = (0, 0);
    for seed in 0..300 {
        let sheet = from_seed(seed);
        let random = &mut Random::new(!seed);
        for _ in 0..20 {
            let file = damaged(random, &sheet);
            let dues = due_list(&file);
            let verdict = verdict(&file);
            assert!(dues.starts_with(&verdict.kinds), "{seed}");
            assert_eq!(dues.len(), file.len() / RECORD + 1);
            let number = verdict.early.number;
            if matches!(number, 0 | 4) {
                assert_eq!(dues.len(), verdict.kinds.len() + 1, "{seed}");
                assert_eq!(dues.last() == Some(&Kind::M), number == 0, "{seed}");
            }
            late += usize::from(number == 0);
            cut += usize::from(number == 4);
            let part = &file[..random.below(file.len() + 1)];
            assert_eq!(due_list(part), dues[..part.len() / RECORD + 1]);
        }
    }
    assert!(late > 500 && cut > 50, "{late} {cut}");
}

/// Each number that steers the walk counts as far as its field goes.
#[test]
fn large_counts() {
    let cases = [
        (Kind::M, 0, 999, vec![], vec![Kind::H; 999]),
        (Kind::H, 0, 99_999, vec![Kind::M], vec![Kind::N; 99_999]),
        (Kind::H, 1, 99_999, vec![Kind::M], vec![Kind::L; 99_999]),
        (Kind::H, 2, 99_999, vec![Kind::M], vec![Kind::A; 99_999]),
        (Kind::L, 0, 999_999, vec![Kind::M, Kind::H], vec![Kind::Coordinates; 142_857]),
        (Kind::A, 0, 9999, vec![Kind::M, Kind::H], vec![Kind::Loop; 9999]),
        (Kind::Loop, 0, 9999, vec![Kind::M, Kind::H, Kind::A], vec![Kind::Loop; 833]),
    ];
    for (kind, index, count, over, counted) in cases {
        let file = second::damage::counted(kind, index, count);
        let kinds = [over, vec![kind], counted, second::layout::KINDS.to_vec(), vec![Kind::M]].concat();
        assert_eq!(due_list(&file), kinds, "{kind:?} {index}");
    }
}
