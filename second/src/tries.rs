//! Document 02, W3: "find it by halving the interval, with at most 16 middle
//! values tried for any direction met in building a pen": how many that are.

use crate::pen::{near_root, questions, Question};
use crate::setting::Setting;

/// What a search by halves comes to.
struct Search {
    found: i64,
    tried: Vec<i64>,
}

/// Step 2 reduces s to `whole` less the near root where that is less, and a
/// corner with s <= 0 is put out: so a root below whole - s is as good as
/// whole - s, and one above `whole` as good as `whole`. Between these two the
/// interval is halved until it has one value: the root is the middle value (of
/// an even number of values the upper one) or above it where
/// 64q²(2m-1)² <= w²(p²v²+q²u²), and below it otherwise.
fn halve(setting: &Setting, question: &Question) -> Search {
    let (w, p, q) = setting.signed();
    let (w, p, q) = (w as i128, p as i128, q as i128);
    let (u, v) = (question.u as i128, question.v as i128);
    let square = w * w * (p * p * v * v + q * q * u * u);
    let mut values: Vec<i64> = (question.whole - question.s..=question.whole).collect();
    let mut tried = Vec::new();
    while values.len() > 1 {
        let middle = values.len() / 2;
        let m = values[middle] as i128;
        tried.push(values[middle]);
        if 64 * q * q * (2 * m - 1) * (2 * m - 1) <= square {
            values.drain(..middle);
        } else {
            values.truncate(middle);
        }
    }
    Search {
        found: values[0],
        tried,
    }
}

/// Over all near roots that building the settings' pens asks for.
#[derive(Debug, Default, PartialEq, Eq)]
struct Count {
    /// How many roots took 0, 1, 2, .. tries.
    roots: Vec<u64>,
    /// The most that one pen took for all its roots.
    most_in_a_pen: usize,
    /// The most values that a root was sought among.
    most_values: i64,
}

fn count(settings: &[Setting]) -> Count {
    let mut count = Count::default();
    for setting in settings {
        let mut in_this_pen = 0;
        for question in questions(setting).expect("a setting within the limits") {
            let search = halve(setting, &question);
            let root = near_root(setting, question.u, question.v);
            let (low, high) = (question.whole - question.s, question.whole);
            assert_eq!(
                search.found,
                root.clamp(low, high),
                "{setting:?} {question:?}"
            );
            let tries = search.tried.len();
            if count.roots.len() <= tries {
                count.roots.resize(tries + 1, 0);
            }
            count.roots[tries] += 1;
            count.most_values = count.most_values.max(question.s + 1);
            in_this_pen += tries;
        }
        count.most_in_a_pen = count.most_in_a_pen.max(in_this_pen);
    }
    count
}

/// How often each number of tries occurs, and in all.
pub fn report(settings: &[Setting]) -> String {
    let count = count(settings);
    let mut text = String::new();
    for (tries, roots) in count.roots.iter().enumerate() {
        text += &format!("{tries} tried: {roots} near roots\n");
    }
    let roots: u64 = count.roots.iter().sum();
    let tries: u64 = (0..).zip(&count.roots).map(|(n, roots)| n * roots).sum();
    text + &format!(
        "{} settings, {roots} near roots, {tries} middle values tried, at most {} for a pen; sought among at most {} values\n",
        settings.len(),
        count.most_in_a_pen,
        count.most_values
    )
}

#[cfg(test)]
mod tests {
    use super::*;
    use crate::stream::good_settings;

    /// The first corner of w = 176: 64 (2m-1)² <= 176² * 2 < 64 (2m+1)² for
    /// m = 16, sought from 11 to 22.
    #[test]
    fn a_search_by_hand() {
        let setting = Setting::new(176, 1, 1);
        let question = questions(&setting).unwrap()[0];
        let expected = Question {
            u: 1,
            v: 1,
            whole: 22,
            s: 11,
        };
        assert_eq!(question, expected);
        let search = halve(&setting, &question);
        assert_eq!(search.tried, [17, 14, 15, 16]);
        assert_eq!(search.found, 16);
    }

    /// A root below the interval, in it or above it is brought into it, and
    /// n values take log2 n tries, rounded either way.
    #[test]
    fn every_interval() {
        let setting = Setting::new(176, 1, 1);
        let root = near_root(&setting, 1, 1);
        for whole in 0..40 {
            for s in 0..=whole {
                let question = Question {
                    u: 1,
                    v: 1,
                    whole,
                    s,
                };
                let search = halve(&setting, &question);
                assert_eq!(search.found, root.clamp(whole - s, whole));
                let (values, power) = (s + 1, 1 << search.tried.len());
                assert!(values < 2 * power && power < 2 * values);
            }
        }
    }

    /// The numbers of docs/changes/W3.md.
    #[test]
    fn all_settings() {
        let settings = good_settings();
        assert_eq!(settings.len(), 92_217);
        let expected = Count {
            roots: vec![0, 502_178, 223_161, 87_970, 38_106, 9_766],
            most_in_a_pen: 38,
            most_values: 33,
        };
        assert_eq!(count(&settings), expected);
    }
}
