//! Containers by docs/CONTAINER.md, made byte by byte.

use flcol::{DType, PType};

/// A node of a container.
#[derive(Default)]
pub struct Node<'a> {
    pub id: &'a str,
    pub dtype: u8,
    pub len: u64,
    pub metadata: &'a [u8],
    pub buffers: &'a [&'a [u8]],
    pub children: &'a [Vec<u8>],
}

impl Node<'_> {
    pub fn bytes(&self) -> Vec<u8> {
        let mut bytes = vec![self.id.len() as u8];
        bytes.extend(self.id.as_bytes());
        bytes.push(self.dtype);
        bytes.extend(self.len.to_le_bytes());
        bytes.extend((self.metadata.len() as u32).to_le_bytes());
        bytes.extend(self.metadata);
        bytes.push(self.buffers.len() as u8);
        self.buffers.iter().for_each(|buffer| put(&mut bytes, buffer));
        bytes.push(self.children.len() as u8);
        self.children.iter().for_each(|child| put(&mut bytes, child));
        bytes
    }
}

fn put(bytes: &mut Vec<u8>, part: &[u8]) {
    bytes.extend((part.len() as u64).to_le_bytes());
    bytes.extend(part);
}

/// The number of a type.
pub fn number(dtype: impl Into<DType>) -> u8 {
    let DType { ptype, nullable } = dtype.into();
    ptype as u8 + if nullable { 16 } else { 0 }
}

/// So many times one item, 0 of an unsigned type or -1 of another; of a nullable type a null.
pub fn constant(dtype: DType, len: u64) -> Vec<u8> {
    let metadata: &[u8] = match dtype {
        DType { nullable: true, .. } => &[],
        DType { ptype: PType::U8 | PType::U16 | PType::U32 | PType::U64, .. } => &[32, 0],
        _ => &[24, 1],
    };
    Node { id: "vortex.constant", dtype: number(dtype), len, metadata, ..Node::default() }.bytes()
}

/// A container of a node.
pub fn container(node: &[u8]) -> Vec<u8> {
    [b"FLC1", node].concat()
}
