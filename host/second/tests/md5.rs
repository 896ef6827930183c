//! The states of MD5.

use second::md5::State;

/// A state whose pending bytes are all 0xaa.
fn full() -> State {
    State {
        pending: [0xaa; 64],
        ..State::new()
    }
}

#[test]
fn pending_bytes_before_a_block_is_whole() {
    let mut state = full();
    state.update(&[1; 10]).unwrap();
    assert_eq!(state.pending[..10], [1; 10]);
    assert_eq!(state.pending[10..], [0xaa; 54]);
}

#[test]
fn zeros_after_a_block_became_whole() {
    for first in [0, 10] {
        let mut state = full();
        state.update(&vec![1; first]).unwrap();
        state.update(&vec![2; 64 - first + 3]).unwrap();
        assert_eq!(state.pending[..3], [2; 3]);
        assert_eq!(state.pending[3..], [0; 61]);
    }
}
