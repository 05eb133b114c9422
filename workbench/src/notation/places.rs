//! Places in words: "argument 2", "argument 1, part 3", "argument 1, part 3.2".

/// How many places there are: 8 arguments with 84 places below each.
pub const PLACES: u16 = 680;

/// How many places a place of depth 1, 2, 3, 4 has at or below it.
const SPANS: [u16; 4] = [85, 21, 5, 1];

/// The way to a place: the argument, then the parts below it, each from 1. None for a number that is
/// no place's.
pub fn path(place: u16) -> Option<Vec<u8>> {
    if place >= PLACES {
        return None;
    }
    let mut path = vec![(place / SPANS[0] + 1) as u8];
    let mut offset = place % SPANS[0];
    for span in &SPANS[1..] {
        if offset == 0 {
            break;
        }
        path.push(((offset - 1) / span + 1) as u8);
        offset = (offset - 1) % span;
    }
    Some(path)
}

/// The place to which a way leads, if there is one: an argument from 1 to 8, then up to 3 parts from 1
/// to 4.
pub fn place(path: &[u8]) -> Option<u16> {
    let (argument, parts) = path.split_first()?;
    if !(1..=8).contains(argument) || parts.len() > 3 || !parts.iter().all(|part| (1..=4).contains(part)) {
        return None;
    }
    let first = SPANS[0] * (u16::from(*argument) - 1);
    Some(
        parts
            .iter()
            .zip(&SPANS[1..])
            .fold(first, |place, (part, span)| place + 1 + (u16::from(*part) - 1) * span),
    )
}

/// The parent of a place; none of an argument.
pub fn parent(place: u16) -> Option<u16> {
    let path = path(place)?;
    self::place(&path[..path.len() - 1])
}

/// The highest place at or below a place.
pub fn last_below(place: u16) -> u16 {
    let depth = path(place).map_or(1, |path| path.len());
    place + SPANS[depth - 1] - 1
}

/// A place in words.
pub fn words(place: u16) -> String {
    match path(place).as_deref() {
        Some([argument]) => format!("argument {argument}"),
        Some([argument, parts @ ..]) => {
            let parts: Vec<String> = parts.iter().map(u8::to_string).collect();
            format!("argument {argument}, part {}", parts.join("."))
        }
        _ => format!("place {place}"),
    }
}

/// An equality in words.
pub fn pair_words(p: u16, q: u16) -> String {
    format!("{} = {}", words(p), words(q))
}

#[cfg(test)]
mod tests {
    use super::*;

    #[test]
    fn every_place_has_its_way() {
        for number in 0..PLACES {
            let way = path(number).expect("a place");
            assert_eq!(place(&way), Some(number));
            let below =
                (number..PLACES).take_while(|other| path(*other).is_some_and(|to| to.starts_with(&way)));
            assert_eq!(below.last(), Some(last_below(number)));
            assert_eq!(parent(number).and_then(path), (way.len() > 1).then(|| way[..way.len() - 1].to_vec()));
        }
        assert_eq!(path(PLACES), None);
        for wrong in [&[][..], &[0], &[9], &[1, 0], &[1, 5], &[1, 1, 1, 1, 1]] {
            assert_eq!(place(wrong), None, "{wrong:?}");
        }
    }

    #[test]
    fn places_are_said_in_words() {
        assert_eq!(words(0), "argument 1");
        assert_eq!(words(85), "argument 2");
        assert_eq!(words(43), "argument 1, part 3");
        assert_eq!(words(679), "argument 8, part 4.4.4");
        assert_eq!(words(700), "place 700");
        assert_eq!(pair_words(0, 85), "argument 1 = argument 2");
    }
}
