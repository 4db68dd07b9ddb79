//! What a reader of messages with a wrong rule takes them for.

use model::messages::padding;
use model::ttlv::{encode, tree, Content, Node};

use crate::broken::Rule;
use crate::message::tag;

/// A message in which the model finds what a reader with the rule finds in this one. Namespace and tag are the frame's.
pub fn misread(rule: Rule, message: &[u8], namespace: u8, key_tag: u16) -> Vec<u8> {
    let seen = match rule {
        Rule::MessagePadding => Some(without_padding(message)),
        Rule::MessageDepth => shallow(message),
        _ => tree(message).map(|mut nodes| {
            each(&mut nodes, &mut |node| match rule {
                Rule::MessageNamespace => say(node, b"NamespaceID", namespace.into()),
                Rule::MessageTag => say(node, b"KeyTag", key_tag.into()),
                Rule::MessageUid => rename(node),
                Rule::MessageFirst => turn(node),
                _ => {}
            });
            encode(&nodes)
        }),
    };
    seen.unwrap_or_else(|| message.to_vec())
}

fn without_padding(message: &[u8]) -> Vec<u8> {
    let mut bytes = message.to_vec();
    padding(message).into_iter().for_each(|at| bytes[at] = 0);
    bytes
}

/// The message without its items at depth nine, if what stands in the outermost item is sound by itself: then none
/// stands deeper.
fn shallow(message: &[u8]) -> Option<Vec<u8>> {
    let (head, members) = message.split_first_chunk::<8>()?;
    let length = u32::try_from(members.len()).ok()?;
    if head[3] != 1 || head[4..] != length.to_be_bytes() {
        return None;
    }
    let mut nodes = tree(members)?;
    cut(&mut nodes, 2);
    let outermost = Node::structure([head[0], head[1], head[2]], nodes);
    Some(encode(&[outermost]))
}

fn cut(nodes: &mut Vec<Node>, depth: usize) {
    if depth == 9 {
        nodes.clear();
    }
    for node in nodes {
        if let Content::Structure(members) = &mut node.content {
            cut(members, depth + 1);
        }
    }
}

fn each(nodes: &mut [Node], change: &mut impl FnMut(&mut Node)) {
    for node in nodes {
        change(node);
        if let Content::Structure(members) = &mut node.content {
            each(members, change);
        }
    }
}

/// Gives the number to an attribute of the name.
fn say(node: &mut Node, name: &[u8], number: i32) {
    let is_named = node.members().contains(&Node::text(tag(0x0A), name));
    if let (true, Content::Structure(members)) = (is_named, &mut node.content) {
        let values = members.iter_mut().filter(|member| member.tag == tag(0x0B));
        values.for_each(|value| value.content = Content::Integer(number));
    }
}

fn rename(node: &mut Node) {
    if *node == Node::text(tag(0x0A), b"UID") {
        *node = Node::text(tag(0x0A), b"DIU");
    }
}

/// The last of the attributes comes first, and their order is free.
fn turn(node: &mut Node) {
    if let (true, Content::Structure(members)) = (node.tag == tag(0x0125), &mut node.content) {
        members.reverse();
    }
}
