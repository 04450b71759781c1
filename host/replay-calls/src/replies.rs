//! The replies as numbers.

use crate::library::Library;
use crate::{CALL_WIDTH, HEAD, uses};
use taripomune_header::Reply;

/// The struct of `crates/taripomune`, as `CosetStepReply` for `tari_coset_step_reply`.
fn rattle_name(reply: &str) -> String {
    let stem = reply.strip_prefix("tari_").and_then(|name| name.strip_suffix("_reply")).expect("the name of a reply");
    let capital = |word: &str| match word {
        "m31" | "cm31" | "qm31" => word.to_uppercase(),
        _ => word[..1].to_uppercase() + &word[1..],
    };
    stem.split('_').map(capital).collect::<String>() + "Reply"
}

pub fn file(library: &Library) -> String {
    let replies = &library.header.replies;
    let structs = replies.iter().map(|reply| {
        let name = rattle_name(&reply.name);
        format!("taripomune::{}::{name}", library.module_of(&format!("pub struct {name} ")))
    });
    let impls: Vec<String> = replies.iter().map(conversion).collect();
    let uses = uses(structs.chain(["crate::answer::Answer".to_string()]));
    format!(
        "{HEAD}\n// An impl for each reply, some with the same text: C has a struct for each.\n{uses}\n{}",
        impls.join("\n")
    )
}

fn conversion(reply: &Reply) -> String {
    let name = rattle_name(&reply.name);
    let values = reply.compared().into_iter().map(|field| field.name.as_str());
    let numbers: Vec<String> =
        ["number", "position"].into_iter().chain(values).map(|field| format!("i128::from(r.{field})")).collect();
    let list = numbers.join(", ");
    let list = if list.len() <= CALL_WIDTH {
        list
    } else {
        format!("\n            {},\n        ", numbers.join(",\n            "))
    };
    format!(
        "impl From<{name}> for Answer {{\n    fn from(r: {name}) -> Answer {{\n        \
         Answer::of_reply(&[{list}])\n    }}\n}}\n"
    )
}
