//! Archives: two files written by hand (tests/data), the same matrices in text and in binary, read and written again; and damaged ones.
use shofrakin::archive::{write_matrix, Archive, Form, Specifier};

const TEXT: &[u8] = include_bytes!("data/hand.txt");
const BINARY: &[u8] = include_bytes!("data/hand.ark");

type Matrices = Vec<(String, usize, Vec<f32>)>;

/// Keys, columns and numbers, or the message.
fn read(bytes: &[u8]) -> Result<Matrices, String> {
    /// Gives a few bytes at a time, as a pipe may.
    struct Slow<'a>(&'a [u8]);
    impl std::io::Read for Slow<'_> {
        fn read(&mut self, to: &mut [u8]) -> std::io::Result<usize> {
            let n = self.0.len().min(to.len()).min(7);
            to[..n].copy_from_slice(&self.0[..n]);
            self.0 = &self.0[n..];
            Ok(n)
        }
    }
    let mut a = Archive::new(Slow(bytes));
    let mut all = Vec::new();
    while let Some(key) = a.next_key().map_err(|e| e.to_string())? {
        let key = String::from_utf8_lossy(key).into_owned();
        let (mut row, mut numbers, mut columns) = (Vec::new(), Vec::new(), 0);
        while a.next_row(&mut row).map_err(|e| e.to_string())? {
            columns = row.len();
            numbers.extend(&row);
        }
        all.push((key, columns, numbers));
    }
    assert_eq!(a.position(), bytes.len() as u64);
    Ok(all)
}

fn written(form: Form, all: &Matrices) -> Vec<u8> {
    let mut w = Vec::new();
    for (key, columns, numbers) in all {
        write_matrix(&mut w, form, key.as_bytes(), *columns, numbers).unwrap();
    }
    w
}

fn by_hand() -> Matrices {
    vec![("first".into(), 2, vec![1.0, -2.5, 0.25, 3e-6, 1e20, 0.0]), ("second".into(), 1, vec![-0.125]), ("none".into(), 0, vec![])]
}

#[test]
fn both_forms_are_read() {
    assert_eq!(read(TEXT).unwrap(), by_hand());
    assert_eq!(read(BINARY).unwrap(), by_hand());
}

#[test]
fn both_forms_are_written_as_they_stand_in_the_files() {
    assert_eq!(String::from_utf8(written(Form::Text, &by_hand())).unwrap(), String::from_utf8(TEXT.to_vec()).unwrap());
    assert_eq!(written(Form::Binary, &by_hand()), BINARY);
}

#[test]
fn numbers_that_are_no_matrix_are_not_written() {
    for form in [Form::Text, Form::Binary] {
        for (columns, numbers) in [(2, &[1f32; 3] as &[f32]), (4, &[1.0; 3]), (0, &[1.0])] {
            let mut w = Vec::new();
            assert_eq!(write_matrix(&mut w, form, b"key", columns, numbers).unwrap_err().to_string(), "numbers that make no whole rows");
            assert_eq!(w, b"");
        }
    }
}

#[test]
fn every_float_comes_back_from_text() {
    let mut x = 1u32;
    let mut numbers = vec![f32::INFINITY, f32::NEG_INFINITY, 0.0, -0.0, f32::MIN_POSITIVE, f32::MAX, 1e-45];
    for _ in 0..10_000 {
        x ^= x << 13;
        x ^= x >> 17;
        x ^= x << 5;
        numbers.extend(Some(f32::from_bits(x)).filter(|x| !x.is_nan()));
    }
    let back = read(&written(Form::Text, &vec![("u".into(), 1, numbers.clone())])).unwrap();
    assert!(back[0].2.iter().map(|x| x.to_bits()).eq(numbers.iter().map(|x| x.to_bits())));
    let nan = read(&written(Form::Text, &vec![("u".into(), 1, vec![f32::NAN])])).unwrap();
    assert!(nan[0].2[0].is_nan());
}

#[test]
fn other_text_layouts_and_doubles_are_read() {
    let want: Matrices = vec![("a".into(), 2, vec![1.0, 2.0, 3.0, 4.0]), ("b".into(), 1, vec![5.0])];
    assert_eq!(read(b"a [ 1 2\r\n3 4 ]\r\nb [ 5 ]").unwrap(), want);
    assert_eq!(read(b"a\t[ 1.0 2; +3 4e0; ]\n\n\n b\n[\n\n5\n]\n").unwrap(), want);
    let mut b = b"a \0BDM \x04\x02\0\0\0\x04\x02\0\0\0".to_vec();
    for x in [1f64, 2.0, 3.0, 4.0] {
        b.extend(x.to_le_bytes());
    }
    b.extend(b"\nb [5]");
    assert_eq!(read(&b).unwrap(), want);
    assert_eq!(read(b"").unwrap(), vec![]);
    assert_eq!(read(b" \n ").unwrap(), vec![]);
}

#[test]
fn a_damaged_archive_names_its_byte() {
    let cases: &[(&[u8], &str)] = &[
        (b"a [ 1 2\n3 x4 ]", "byte 10: \"x4\" is no number, inside utterance a, row 1"),
        (b"a [ 1 2\n  3 4 5 ]", "byte 10: a row of 3 numbers after rows of 2, inside utterance a, row 1"),
        (b"a [ 1 2\n3 ]", "byte 8: a row of 1 numbers after rows of 2, inside utterance a, row 1"),
        (b"a [ 1 2\n3 4", "byte 11: the archive ends inside utterance a, row 1"),
        (b"a", "byte 1: the archive ends after the key a"),
        (b"a  ", "byte 3: the archive ends after the key a"),
        (b"a b", "byte 2: no matrix after the key a: neither [ nor binary"),
        (b"\0BFM \x04", "byte 0: no key: an archive has a word and a blank before each matrix"),
        (b"a \0BCM \x04", "byte 2: a compressed matrix, which is not read: write the archive with --compress=false"),
        (b"a \0BFV \x04\x01\0\0\0", "byte 2: no matrix of floats or doubles: neither FM nor DM"),
        (b"a \0BFM \x08\x01\0\0\0\x04\x01\0\0\0", "byte 7: no number of rows or columns"),
        (b"a \0BFM \x04\x01\0\0\0\x04\xff\xff\xff\xff", "byte 12: no number of rows or columns"),
        (b"a \0BFM \x04\x01\0\0\0\x04\0\0\0\0", "byte 2: a matrix of 1 rows and 0 columns"),
        // a length that nothing is behind buys no memory
        (b"a \0BFM \x04\x01\0\0\0\x04\xff\xff\xff\x7f\0\0\0", "byte 20: the archive ends inside utterance a, row 0"),
    ];
    for (bytes, want) in cases {
        assert_eq!(&read(bytes).unwrap_err(), want);
    }
}

#[test]
fn an_archive_cut_anywhere_is_whole_utterances_or_an_error_at_the_cut() {
    for (bytes, ends) in [(TEXT, vec![]), (BINARY, vec![0, 45, 71])] {
        for n in 0..bytes.len() {
            match read(&bytes[..n]) {
                Ok(all) => assert!(by_hand().starts_with(&all) && (ends.is_empty() || ends.contains(&n)), "cut at {n}: {all:?}"),
                Err(e) => assert!(e.starts_with(&format!("byte {n}: the archive ends")), "cut at {n}: {e}"),
            }
        }
    }
}

#[test]
fn specifiers() {
    let is = |s: &str, form, file: Option<&str>| assert_eq!(Specifier::parse(s).unwrap(), Specifier { form, file: file.map(Into::into) });
    is("ark:a/b.ark", Form::Binary, Some("a/b.ark"));
    is("ark,t:b", Form::Text, Some("b"));
    is("t,ark:b", Form::Text, Some("b"));
    is("ark,s,cs:-", Form::Binary, None);
    is("-", Form::Binary, None);
    is("ark,t:-", Form::Text, None);
    is("b:c", Form::Binary, Some("b:c"));
    for bad in ["scp:f.scp", "ark,x:f", "ark:", "ark:copy-feats scp:f ark:- |"] {
        assert!(Specifier::parse(bad).is_err(), "{bad}");
    }
}

/// Whatever the bytes are, reading ends, with whole rows or with an error at a byte that is there.
#[test]
fn spoilt_bytes() {
    let mut x = 2463534242u32;
    let mut draw = |n: usize| {
        x ^= x << 13;
        x ^= x >> 17;
        x ^= x << 5;
        x as usize % n
    };
    for i in 0..40_000 {
        let mut b = if i % 2 == 0 { TEXT.to_vec() } else { BINARY.to_vec() };
        for _ in 0..1 + draw(3) {
            let (at, by) = (draw(b.len()), draw(256) as u8);
            match draw(4) {
                0 => b[at] = by,
                1 => b[at] ^= 1 << (by % 8),
                2 => b.insert(at, by),
                _ => drop(b.remove(at)),
            }
        }
        match read(&b) {
            Ok(all) => assert!(all.iter().all(|(key, columns, numbers)| !key.is_empty() && numbers.len() % columns.max(&1) == 0)),
            Err(e) => {
                let at: usize = e.strip_prefix("byte ").and_then(|e| e.split_once(':')).unwrap().0.parse().unwrap();
                assert!(at <= b.len(), "{e}");
            }
        }
    }
}
