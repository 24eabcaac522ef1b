//! Picture calls that are refused: the planes in turn, each through all its
//! checks before the next, then 31. The changes of `plane_refusals` are made
//! in up to two of the planes; what is wanted is made of what the plane
//! writer answers for each plane alone.

use crate::ours_picture::{PictureCall, PictureLent, PictureWritten};
use crate::ours_plane::Written;
use crate::picture_wanted::{NOTHING, TOO_LITTLE};
use crate::plane_refusals::{Asked, good_plane, small_changes};
use crate::random::Random;
use crate::refusals::any_margin;
use crate::tally::Tally;

const CALLS: usize = 4000;

/// Two macroblocks in each plane, and the house book's SKIP code has one bit.
const MACROBLOCKS: usize = 6;
const LEAST: u64 = 6;

pub fn refusals(random: &mut Random, tally: &mut Tally) -> Result<(), String> {
    let changes = small_changes();
    for _ in 0..CALLS {
        let margin = any_margin(random);
        let mut asked = [(); 3].map(|()| good_plane(margin));
        let mut names = Vec::new();
        for _ in 0..random.below(3) {
            let (plane, (name, change)) = (random.below(3), random.pick(&changes));
            change(&mut asked[plane]);
            share(&mut asked, plane);
            names.push(format!("{name} in plane {plane}"));
        }
        let allowance = random.pick(&[0, LEAST - 1, LEAST, LEAST, 1000, u64::MAX]);
        let want = wanted(&asked, allowance);
        check(&asked, allowance, &want)
            .map_err(|told| format!("picture, {names:?}, allowance {allowance}: {told}"))?;
        tally.one(format!("picture call answered {}", want.refused));
    }
    Ok(())
}

/// Gives all planes what they share, from the one that was changed.
fn share(asked: &mut [Asked; 3], changed: usize) {
    let from = asked[changed].clone();
    for to in asked {
        to.call.book.clone_from(&from.call.book);
        to.call.codebook.clone_from(&from.call.codebook);
        to.call.lambda = from.call.lambda;
        to.call.radius = from.call.radius;
        to.call.four = from.call.four;
        to.call.margin = from.call.margin;
        to.lent.out.clone_from(&from.lent.out);
        to.start = from.start;
    }
}

/// The first plane that is refused alone answers its number; 22 comes behind
/// all checks, and here at the first macroblock.
fn wanted(asked: &[Asked; 3], allowance: u64) -> PictureWritten {
    let mut want = PictureWritten {
        planes: [NOTHING; 3],
        ..TOO_LITTLE
    };
    let alone = asked.each_ref().map(|plane| {
        let mut lent = plane.lent.clone();
        plane.call.write(&mut lent, plane.start).refused
    });
    let refused = |&refused: &u8| refused != 0 && refused != 22;
    if let Some(plane) = alone.iter().position(refused) {
        want.refused = alone[plane];
        want.planes[plane].refused = alone[plane];
    } else if allowance >= LEAST {
        want.refused = alone[0];
        want.planes = [Written {
            next: asked[0].start,
            ..NOTHING
        }; 3];
        want.planes[0].refused = alone[0];
    }
    want
}

/// A call that is not refused writes all macroblocks; any other changes
/// nothing.
fn check(asked: &[Asked; 3], allowance: u64, want: &PictureWritten) -> Result<(), String> {
    let call = PictureCall {
        planes: asked.each_ref().map(|plane| plane.call.clone()),
    };
    let before = PictureLent {
        out: asked[0].lent.out.clone(),
        planes: asked.each_ref().map(|plane| plane.lent.clone()),
    };
    let mut left = before.clone();
    let got = call.write(&mut left, allowance, asked[0].start);
    let as_wanted = if want.refused == 0 {
        got.refused == 0 && got.done == MACROBLOCKS
    } else {
        got == *want && left == before
    };
    if as_wanted {
        return Ok(());
    }
    Err(format!("wanted {want:?} and nothing changed, got {got:?}"))
}
