//! T-02: "Wherever a sheet line has a time, four or six digits may follow the `T`."

use crate::random::Random;

const SEPARATORS: [char; 4] = [' ', ';', '=', '\n'];

/// The text with `00` after about every third of its times, so that both forms stand side by side.
pub fn with_seconds(text: &str, random: &mut Random) -> String {
    let words = text.split_inclusive(SEPARATORS);
    let written = words.map(|word| {
        let bare = word.trim_end_matches(SEPARATORS);
        let seconds = match is_time(bare) && random.between(0, 2) == 0 {
            true => "00",
            false => "",
        };
        format!("{bare}{seconds}{}", &word[bare.len()..])
    });
    written.collect()
}

/// `YYYYMMDDTHHMM`, whatever its numbers.
fn is_time(word: &str) -> bool {
    let all_digits = |text: &str| text.bytes().all(|byte| byte.is_ascii_digit());
    match word.split_once('T') {
        Some((date, clock)) => {
            (date.len(), clock.len()) == (8, 4) && all_digits(date) && all_digits(clock)
        }
        None => false,
    }
}
