//! The cases of a purge: of one delta, of half and of all of 64, and what is refused.

use crate::bench::cases::{Arrival, Call, Case, Shape, Spec};

/// The deltas of each image, and how many of them are purged.
const COUNT: usize = 64;
const PURGED: [u32; 3] = [1, 32, 64];
/// The most floors an image has.
const FLOORS: usize = 32;

/// Each of the three, for few lines and many, short messages and long ones, the first floors
/// and 32 that are raised. Of lone lines 64 are too many; of a chain there are none to purge
/// and one too many as well.
pub fn specs() -> Vec<Spec> {
    let mut specs = Vec::new();
    for shape in [Shape::Chain, Shape::Lone, Shape::Woven, Shape::WovenFloors] {
        specs.extend(PURGED.map(|k| Spec::new(shape, Arrival::Purge(k), COUNT)));
    }
    specs.extend([0, 65].map(|k| Spec::new(Shape::Chain, Arrival::Purge(k), COUNT)));
    specs
}

/// The case of a purge of so many: the image alone, and the code.
pub fn build(spec: &Spec, k: u32) -> Case {
    let answer = match k as usize {
        k if k > spec.count => 15,
        k if spec.shape == Shape::Lone && k > FLOORS => 16,
        _ => 0,
    };
    Case {
        name: spec.to_string(),
        call: Call::Purge(k),
        image: spec.shape.image(spec.count),
        message: Vec::new(),
        steps: Vec::new(),
        answer,
    }
}

#[cfg(test)]
mod tests {
    use crate::bench::cases::named;
    use crate::bench::sides::{second, Buffers};
    use crate::view::{all_messages, floors, u16_at};

    /// The image that a case leaves.
    fn left(name: &str) -> Vec<u8> {
        let case = named(name).expect("a case").build();
        let mut buffers = Buffers::new(&case);
        assert_eq!(buffers.call(second(), &case), 0, "{name}");
        buffers.image
    }

    /// How many stay in the log, how many floors there are, and the last one's number.
    #[test]
    fn a_purge_leaves_what_its_name_says() {
        for (name, log, count, number) in [
            ("chain-purge1-64", 63, 1, 1),
            ("chain-purge32-64", 32, 1, 32),
            ("chain-purge64-64", 0, 1, 64),
            ("lone-purge1-64", 63, 1, 1),
            ("lone-purge32-64", 32, 32, 1),
            ("woven-purge32-64", 32, 32, 1),
            ("woven-purge64-64", 0, 32, 2),
            ("woven32-purge32-64", 32, 32, 10),
            ("woven32-purge64-64", 0, 32, 11),
        ] {
            let image = left(name);
            let floors = floors(&image);
            let last = floors.last().map(|floor| u16_at(floor, 10));
            let found = (u16_at(&image, 0), floors.len(), last);
            assert_eq!(found, (log, count, Some(number)), "{name}");
        }
    }

    /// Woven messages are of the greatest length from the ninth on.
    #[test]
    fn woven_messages_are_the_longest() {
        for name in ["woven-purge1-64", "woven32-purge1-64"] {
            let image = named(name).expect("a case").build().image;
            assert_eq!((u16_at(&image, 0), u16_at(&image, 2)), (64, 0));
            let lengths: Vec<usize> = all_messages(&image).iter().map(Vec::len).collect();
            assert!(lengths[8..].iter().all(|length| *length == 200), "{name}");
        }
    }
}
