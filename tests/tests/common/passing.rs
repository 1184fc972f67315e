//! Wrong implementations whose fault is gone once nothing is held.

use bivamolune_tests::boundary::{code, Calls, Reference};
use bivamolune_tests::reference::compose::Request;

use bivamolune_tests::view::first_message;

use super::common::{messages, u16_at};

/// Keeps held deltas in the order in which they came.
pub struct HeldAsTheyCame;

impl Calls for HeldAsTheyCame {
    fn deliver(&self, image: &mut [u8], message: &[u8], steps: &mut [u8]) -> u32 {
        let came = held(image);
        sort_held(image);
        let answer = Reference.deliver(image, message, steps);
        let mut all = held(image);
        let last = came.len();
        all.sort_by_key(|own| came.iter().position(|one| one == own).unwrap_or(last));
        put_held(image, &all);
        answer
    }

    fn compose(&self, image: &[u8], request: &Request, message: &mut [u8]) -> u32 {
        let mut image = image.to_vec();
        sort_held(&mut image);
        Reference.compose(&image, request, message)
    }
}

/// Forgets the first held delta when a repeat comes, as long as there are few deltas.
pub struct ForgetsHeld;

impl Calls for ForgetsHeld {
    fn deliver(&self, image: &mut [u8], message: &[u8], steps: &mut [u8]) -> u32 {
        let before = image.to_vec();
        let answer = Reference.deliver(image, message, steps);
        let few = u16_at(image, 0) < 4;
        if few && code(answer) == 0 && image == before {
            let rest: Vec<Vec<u8>> = held(image).into_iter().skip(1).collect();
            put_held(image, &rest);
        }
        answer
    }
}

fn held(image: &[u8]) -> Vec<Vec<u8>> {
    messages(image, u16_at(image, 0), u16_at(image, 2))
}

fn sort_held(image: &mut [u8]) {
    let mut all = held(image);
    all.sort_by_key(|message| message[12..24].to_vec());
    put_held(image, &all);
}

/// Writes held messages in the place of those that are there.
fn put_held(image: &mut [u8], held: &[Vec<u8>]) {
    let log = messages(image, 0, u16_at(image, 0));
    let all = [log.concat(), held.concat()].concat();
    let first = first_message(image);
    let used = first + all.len();
    image[2..4].copy_from_slice(&(held.len() as u16).to_be_bytes());
    image[8..10].copy_from_slice(&(used as u16).to_be_bytes());
    image[first..used].copy_from_slice(&all);
    image[used..].fill(0);
}
