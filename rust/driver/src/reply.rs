//! Replies in a script's numbers: in a few words, and from what a slot holds.

use script::Reply;
use tilgurap::{Description, Errno};

/// A list of descriptions in words.
pub fn list(descriptions: &[u64]) -> String {
    let numbers: Vec<String> = descriptions.iter().map(u64::to_string).collect();
    numbers.join(", ")
}

/// The numbers of descriptions.
pub fn numbers(descriptions: &[Description]) -> Vec<u64> {
    descriptions.iter().map(|d| d.0).collect()
}

/// An error by its name and its number; a line may say one without a name.
pub fn error(errno: u64) -> String {
    Errno::new(errno).map_or_else(|| errno.to_string(), |errno| errno.to_string())
}

/// A reply in a few words.
pub fn told(reply: &Reply) -> String {
    match reply {
        Reply::Regular {
            result,
            extra0,
            notice,
        } => {
            let mut text = match result {
                Ok(word) => format!("success with {word}"),
                Err(errno) => format!("error {}", error(*errno)),
            };
            if *extra0 != 0 {
                text += &format!(", extra0 {extra0}");
            }
            if *notice {
                text += ", asks to be told on detach";
            }
            text
        }
        Reply::Fd(description) => format!("description {description}"),
        Reply::Many(many) if many.is_empty() => "an empty list of descriptions".to_owned(),
        Reply::Many(many) => format!("descriptions {}", list(many)),
    }
}

/// The reply that a slot holds, as a line's numbers say it.
pub fn stored(reply: &tilgurap::Reply) -> Reply {
    match reply {
        tilgurap::Reply::Regular {
            result,
            extra0,
            notice,
        } => Reply::Regular {
            result: result.map_err(Errno::number),
            extra0: *extra0,
            notice: *notice,
        },
        tilgurap::Reply::Descriptor(description) => Reply::Fd(description.0),
        tilgurap::Reply::Many(many) => Reply::Many(numbers(many)),
    }
}
