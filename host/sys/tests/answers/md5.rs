use dwarnizza_sys::{
    dwarnizza_md5, dwarnizza_md5_finish, dwarnizza_md5_start, dwarnizza_md5_update,
};

use crate::call::{answer, refused};

#[test]
fn each_call_writes_the_whole_answer() {
    let mut digest = [0; 16];
    let nothing = (0, [0; 8]);
    // SAFETY: pointer and length are those of one slice.
    let whole = answer(|answer| unsafe { dwarnizza_md5(b"abc".as_ptr(), 3, &mut digest, answer) });
    assert_eq!(whole, nothing);

    let (mut words, mut pending, mut count) = ([1; 4], [1; 64], 1);
    let start = answer(|answer| dwarnizza_md5_start(&mut words, &mut pending, &mut count, answer));
    assert_eq!(start, nothing);

    for (before, expected) in [(0, nothing), (1 << 48, refused(50, 0))] {
        count = before;
        let part = b"abc".as_ptr();
        // SAFETY: pointer and length are those of one slice.
        let update = answer(|answer| unsafe {
            dwarnizza_md5_update(part, 3, &mut words, &mut pending, &mut count, answer)
        });
        assert_eq!(update, expected);
    }

    let finish =
        answer(|answer| dwarnizza_md5_finish(&words, &pending, count, &mut digest, answer));
    assert_eq!(finish, nothing);
}
