//! A load as a KMIP message: the profile of sections 3.3.4 and 5.4 of source document 001, for one
//! media key in the clear.

use crate::frame::Material;
use crate::numbers::{KEY, KEY_UID};
use crate::status;
use crate::ttlv::{self, Items, Node, Tag};

const ATTRIBUTE: Tag = [0x42, 0x00, 0x08];
const ATTRIBUTE_NAME: Tag = [0x42, 0x00, 0x0A];
const ATTRIBUTE_VALUE: Tag = [0x42, 0x00, 0x0B];
const BATCH_COUNT: Tag = [0x42, 0x00, 0x0D];
const BATCH_ITEM: Tag = [0x42, 0x00, 0x0F];
const CRYPTOGRAPHIC_ALGORITHM: Tag = [0x42, 0x00, 0x28];
const CRYPTOGRAPHIC_LENGTH: Tag = [0x42, 0x00, 0x2A];
const CRYPTOGRAPHIC_PARAMETERS: Tag = [0x42, 0x00, 0x2B];
const KEY_BLOCK: Tag = [0x42, 0x00, 0x40];
const KEY_FORMAT_TYPE: Tag = [0x42, 0x00, 0x42];
const KEY_MATERIAL: Tag = [0x42, 0x00, 0x43];
const KEY_VALUE: Tag = [0x42, 0x00, 0x45];
const OBJECT_TYPE: Tag = [0x42, 0x00, 0x57];
const OPERATION: Tag = [0x42, 0x00, 0x5C];
const PROTOCOL_VERSION: Tag = [0x42, 0x00, 0x69];
const PROTOCOL_VERSION_MAJOR: Tag = [0x42, 0x00, 0x6A];
const PROTOCOL_VERSION_MINOR: Tag = [0x42, 0x00, 0x6B];
const REQUEST_HEADER: Tag = [0x42, 0x00, 0x77];
const REQUEST_MESSAGE: Tag = [0x42, 0x00, 0x78];
const REQUEST_PAYLOAD: Tag = [0x42, 0x00, 0x79];
const KEY_ROLE_TYPE: Tag = [0x42, 0x00, 0x83];
const SYMMETRIC_KEY: Tag = [0x42, 0x00, 0x8F];
const UNIQUE_IDENTIFIER: Tag = [0x42, 0x00, 0x94];
const VENDOR_IDENTIFICATION: Tag = [0x42, 0x00, 0x9D];
const ATTRIBUTES: Tag = [0x42, 0x01, 0x25];

/// The lowest major version that is taken, and the one that is written.
const MAJOR: i32 = 2;
const MINOR: i32 = 0;
const IMPORT: u32 = 0x2A;
const OBJECT_IS_SYMMETRIC_KEY: u32 = 0x02;
const DEK: u32 = 0x03;
const AES: u32 = 0x03;
const RAW: u32 = 0x01;
const KEY_BITS: i32 = 256;

const VENDOR: &[u8] = b"TCG-SWG";
const NAMESPACE_ID: &[u8] = b"NamespaceID";
const KEY_TAG: &[u8] = b"KeyTag";
/// The name of an attribute that a media key must not have.
const UID: &[u8] = b"UID";

/// KeyUID and key of a message for that namespace and tag: 07 17 if it isn't in the profile or the
/// key has other than 32 bytes, then 07 18 if the KeyUID has other than 1 to 16.
pub fn load(message: &[u8], namespace: u8, tag: u16) -> Result<Material<'_>, u16> {
    let (uid, key) = import(message, namespace, tag).ok_or(status::MESSAGE)?;
    match uid.len() {
        1..=KEY_UID => Ok(Material { uid, key }),
        _ => Err(status::MESSAGE_KEY_UID),
    }
}

/// Down to the payload the members that matter have an order; others may stand between them.
fn import(message: &[u8], namespace: u8, tag: u16) -> Option<(&[u8], &[u8; KEY])> {
    let mut outermost = ttlv::read(message)?;
    let request = outermost.next().filter(|item| item.tag == REQUEST_MESSAGE)?;
    if outermost.next().is_some() {
        return None;
    }
    let mut request = request.value.structure()?;
    header(request.behind(REQUEST_HEADER)?.structure()?)?;
    let mut batch_item = request.behind(BATCH_ITEM)?.structure()?;
    is(batch_item.behind(OPERATION)?.enumeration()?, IMPORT)?;
    payload(batch_item.behind(REQUEST_PAYLOAD)?.structure()?, namespace, tag)
}

fn header(mut header: Items) -> Option<()> {
    let mut version = header.behind(PROTOCOL_VERSION)?.structure()?;
    if version.behind(PROTOCOL_VERSION_MAJOR)?.integer()? < MAJOR {
        return None;
    }
    version.behind(PROTOCOL_VERSION_MINOR)?.integer()?;
    is(header.behind(BATCH_COUNT)?.integer()?, 1)
}

fn payload(mut payload: Items<'_>, namespace: u8, tag: u16) -> Option<(&[u8], &[u8; KEY])> {
    let uid = payload.behind(UNIQUE_IDENTIFIER)?.text()?;
    is(payload.behind(OBJECT_TYPE)?.enumeration()?, OBJECT_IS_SYMMETRIC_KEY)?;
    let attributes = payload.behind(ATTRIBUTES)?.structure()?;
    let block = payload.behind(SYMMETRIC_KEY)?.structure()?.first(KEY_BLOCK)?.structure()?;

    vendor_attributes(attributes, namespace, tag)?;
    let parameters = attributes.first(CRYPTOGRAPHIC_PARAMETERS)?.structure()?;
    is(parameters.first(KEY_ROLE_TYPE)?.enumeration()?, DEK)?;
    let either = |tag| parameters.first(tag).or_else(|| block.first(tag));
    is(either(CRYPTOGRAPHIC_ALGORITHM)?.enumeration()?, AES)?;
    is(either(CRYPTOGRAPHIC_LENGTH)?.integer()?, KEY_BITS)?;

    is(block.first(KEY_FORMAT_TYPE)?.enumeration()?, RAW)?;
    let key = block.first(KEY_VALUE)?.structure()?.first(KEY_MATERIAL)?.bytes()?;
    Some((uid, key.try_into().ok()?))
}

/// Each attribute has the vendor and a name; the first of each of the two names has the number.
fn vendor_attributes(attributes: Items, namespace: u8, tag: u16) -> Option<()> {
    let (mut namespace_seen, mut tag_seen) = (false, false);
    for attribute in attributes.filter(|item| item.tag == ATTRIBUTE) {
        let attribute = attribute.value.structure()?;
        is(attribute.first(VENDOR_IDENTIFICATION)?.text()?, VENDOR)?;
        let value = || attribute.first(ATTRIBUTE_VALUE)?.integer();
        match attribute.first(ATTRIBUTE_NAME)?.text()? {
            UID => return None,
            NAMESPACE_ID if !namespace_seen => {
                is(value()?, namespace.into())?;
                namespace_seen = true;
            }
            KEY_TAG if !tag_seen => {
                is(value()?, tag.into())?;
                tag_seen = true;
            }
            _ => {}
        }
    }
    (namespace_seen && tag_seen).then_some(())
}

fn is<T: PartialEq>(value: T, wanted: T) -> Option<()> {
    (value == wanted).then_some(())
}

/// The message of a load, KeyUID and key of any length: the profile's items and no others.
pub fn message(namespace: u8, tag: u16, uid: &[u8], key: &[u8]) -> Vec<u8> {
    let header = Node::structure(
        REQUEST_HEADER,
        [
            Node::structure(
                PROTOCOL_VERSION,
                [
                    Node::integer(PROTOCOL_VERSION_MAJOR, MAJOR),
                    Node::integer(PROTOCOL_VERSION_MINOR, MINOR),
                ],
            ),
            Node::integer(BATCH_COUNT, 1),
        ],
    );
    let payload = Node::structure(
        REQUEST_PAYLOAD,
        [
            Node::text(UNIQUE_IDENTIFIER, uid),
            Node::enumeration(OBJECT_TYPE, OBJECT_IS_SYMMETRIC_KEY),
            attributes(namespace, tag),
            Node::structure(SYMMETRIC_KEY, [key_block(key)]),
        ],
    );
    let batch_item = Node::structure(BATCH_ITEM, [Node::enumeration(OPERATION, IMPORT), payload]);
    ttlv::encode(&[Node::structure(REQUEST_MESSAGE, [header, batch_item])])
}

fn attributes(namespace: u8, tag: u16) -> Node {
    let parameters = Node::structure(
        CRYPTOGRAPHIC_PARAMETERS,
        [
            Node::enumeration(KEY_ROLE_TYPE, DEK),
            Node::enumeration(CRYPTOGRAPHIC_ALGORITHM, AES),
            Node::integer(CRYPTOGRAPHIC_LENGTH, KEY_BITS),
        ],
    );
    let attribute = |name, value| {
        Node::structure(
            ATTRIBUTE,
            [
                Node::text(VENDOR_IDENTIFICATION, VENDOR),
                Node::text(ATTRIBUTE_NAME, name),
                Node::integer(ATTRIBUTE_VALUE, value),
            ],
        )
    };
    let namespace = attribute(NAMESPACE_ID, namespace.into());
    let tag = attribute(KEY_TAG, tag.into());
    Node::structure(ATTRIBUTES, [parameters, namespace, tag])
}

fn key_block(key: &[u8]) -> Node {
    let value = Node::structure(KEY_VALUE, [Node::bytes(KEY_MATERIAL, key)]);
    Node::structure(KEY_BLOCK, [Node::enumeration(KEY_FORMAT_TYPE, RAW), value])
}
