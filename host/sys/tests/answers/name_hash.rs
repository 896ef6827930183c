use dwarnizza_sys::dwarnizza_name_hash;

use crate::call::{Answer, one_input, refused};

/// The answer of this hash.
fn hash(hash: u64) -> Answer {
    (0, [hash, 0, 0, 0, 0, 0, 0, 0])
}

#[test]
fn each_call_writes_the_whole_answer() {
    let question_mark = hash(0x9eb5_9e3c_7612_4837);
    for (path, answer) in [
        (&b""[..], hash(0xdead_beef_dead_beef)),
        (br"Interface\Icons\INV_Misc_QuestionMark.blp", question_mark),
        (b"interface/icons/inv_misc_questionmark.BLP", question_mark),
        (&[b'a'; 1025], refused(110, 0)),
        (&[0; 5000], refused(110, 0)),
    ] {
        assert_eq!(one_input(dwarnizza_name_hash, path), answer);
    }
}
