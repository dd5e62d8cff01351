//! The span packer beside its reference, in loops of one shape, each compiled with its packer.
use crate::proved::{pack_all, pack_all_by_form};
use crate::random::Random;
use crate::timing::{asked, best, printed};

const MANY: usize = 1_000_000;

/// A form, and of index, start and length the least and how many more.
type Form = (&'static str, [u64; 3], [u64; 3], bool);

const FORMS: [Form; 10] = [
    ("4 bytes", [0, 0, 0], [16, 1 << 17, 1 << 8], false),
    ("8 bytes", [0, 1 << 17, 0], [1 << 15, (1 << 27) - (1 << 17), 1 << 18], false),
    ("8 bytes by index alone", [16, 0, 0], [(1 << 15) - 16, 1 << 17, 1 << 8], false),
    ("8 bytes by start alone", [0, 1 << 17, 0], [16, (1 << 27) - (1 << 17), 1 << 8], false),
    ("8 bytes by length alone", [0, 0, 1 << 8], [16, 1 << 17, (1 << 18) - (1 << 8)], false),
    ("12 bytes by need", [0, 1 << 27, 0], [1 << 20, 1 << 30, 1 << 20], false),
    ("12 bytes by index alone", [1 << 15, 0, 0], [(1 << 28) - (1 << 15), 1 << 17, 1 << 8], false),
    ("12 bytes by start alone", [0, 1 << 27, 0], [16, 1 << 30, 1 << 8], false),
    ("12 bytes by length alone", [0, 0, 1 << 18], [16, 1 << 17, 1 << 30], false),
    ("12 bytes forced", [0, 0, 0], [16, 1 << 17, 1 << 8], true),
];

/// A million spans each: different ones, and a thousand different ones again and again, which stay in the nearest memory.
pub fn run() {
    let mut r = Random::new(5);
    for (form, least, more, heavy) in FORMS {
        for different in [MANY, 1000] {
            let what = format!("span of {form} packed, beside the reference, {different} different");
            if !asked(&what) {
                continue;
            }
            let words: Vec<u32> = (0..3 * different).map(|i| (least[i % 3] + r.below(more[i % 3])) as u32).collect();
            // one run for both: where it lies beside the list tells on the time
            let out = std::cell::RefCell::new(vec![0; 12 * different]);
            let again = |pack: fn(&mut [u8], usize, &[u32], u32, bool) -> Result<u64, u64>| {
                for _ in 0..MANY / different {
                    pack(&mut out.borrow_mut(), 0, &words, 0, heavy).unwrap();
                }
            };
            let [ours, reference] = best([&mut || again(pack_all), &mut || again(pack_all_by_form)]);
            printed(&what, MANY, ours, reference);
        }
    }
}
