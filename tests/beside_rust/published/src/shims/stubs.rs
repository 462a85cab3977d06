//! SHIMS that let the published files compile. Nothing here decides an answer that is given out
//! as the published one: builders and node types are never reached, and the hasher and the
//! block decoder return fixed values so that the child checks inside `recompute_hash_table` run.

pub mod advice {
    use crate::{Felt, Word};
    use std::{collections::BTreeMap, sync::Arc};

    #[derive(Debug, Clone, Default, PartialEq, Eq)]
    pub struct AdviceMap(BTreeMap<Word, Arc<[Felt]>>);

    impl AdviceMap {
        pub fn len(&self) -> usize {
            self.0.len()
        }
        pub fn contains_key(&self, key: &Word) -> bool {
            self.0.contains_key(key)
        }
        pub fn get(&self, key: &Word) -> Option<&Arc<[Felt]>> {
            self.0.get(key)
        }
    }
}

pub mod chiplets {
    pub mod hasher {
        use crate::{Felt, Word};

        pub fn hash_elements(_: &[Felt]) -> Word {
            Word::default()
        }
        pub fn merge_in_domain(_: &[Word; 2], _: Felt) -> Word {
            Word::default()
        }
    }
}

pub mod utils {
    use std::marker::PhantomData;

    pub trait Idx {}

    #[derive(Debug, Clone, Default)]
    pub struct IndexVec<I, T>(Vec<T>, PhantomData<I>);

    impl<I, T> IndexVec<I, T> {
        pub fn with_capacity(n: usize) -> Self {
            Self(Vec::with_capacity(n), PhantomData)
        }
        pub fn len(&self) -> usize {
            self.0.len()
        }
        pub fn push(&mut self, value: T) -> Result<(), ()> {
            self.0.push(value);
            Ok(())
        }
    }
}

pub mod basic_blocks {
    use crate::{Felt, serde::DeserializationError};

    pub struct OpBatch;

    impl OpBatch {
        pub fn groups(&self) -> &[Felt; 8] {
            &[Felt(0); 8]
        }
    }

    /// Decodes every block to nothing.
    pub struct BasicBlockDataDecoder;

    impl BasicBlockDataDecoder {
        pub fn new(_: &[u8]) -> Self {
            Self
        }
        pub fn decode_operations(&self, _: u32) -> Result<Vec<OpBatch>, DeserializationError> {
            Ok(Vec::new())
        }
    }
}

/// Node and builder types, for `crate::mast::node`.
pub mod node {
    use super::basic_blocks::OpBatch;
    use crate::{Felt, Word, mast::MastNodeId, serde::DeserializationError};

    fn unreached() -> ! {
        unreachable!("shim: node types are never built")
    }

    #[derive(Debug, Clone)]
    pub struct BasicBlockNode;
    #[derive(Debug, Clone)]
    pub struct ExternalNode;
    #[derive(Debug, Clone)]
    pub struct JoinNode;
    #[derive(Debug, Clone)]
    pub struct SplitNode;
    #[derive(Debug, Clone)]
    pub struct LoopNode;
    #[derive(Debug, Clone)]
    pub struct CallNode;
    #[derive(Debug, Clone)]
    pub struct DynNode;

    impl JoinNode {
        pub const DOMAIN: Felt = Felt(0);
        pub fn first(&self) -> MastNodeId {
            unreached()
        }
        pub fn second(&self) -> MastNodeId {
            unreached()
        }
    }
    impl SplitNode {
        pub const DOMAIN: Felt = Felt(0);
        pub fn on_true(&self) -> MastNodeId {
            unreached()
        }
        pub fn on_false(&self) -> MastNodeId {
            unreached()
        }
    }
    impl LoopNode {
        pub const DOMAIN: Felt = Felt(0);
        pub fn body(&self) -> MastNodeId {
            unreached()
        }
    }
    impl CallNode {
        pub const CALL_DOMAIN: Felt = Felt(0);
        pub const SYSCALL_DOMAIN: Felt = Felt(0);
        pub fn is_syscall(&self) -> bool {
            unreached()
        }
        pub fn callee(&self) -> MastNodeId {
            unreached()
        }
    }
    impl DynNode {
        pub const DYN_DEFAULT_DIGEST: Word = Word([Felt(0); 4]);
        pub const DYNCALL_DEFAULT_DIGEST: Word = Word([Felt(0); 4]);
        pub fn is_dyncall(&self) -> bool {
            unreached()
        }
    }

    #[derive(Debug, Clone)]
    pub enum MastNode {
        Block(BasicBlockNode),
        Join(JoinNode),
        Split(SplitNode),
        Loop(LoopNode),
        Call(CallNode),
        Dyn(DynNode),
        External(ExternalNode),
    }

    pub trait MastForestContributor: Sized {
        fn with_digest(self, _: Word) -> Self {
            self
        }
    }

    pub struct BasicBlockNodeBuilder;
    pub struct JoinNodeBuilder;
    pub struct SplitNodeBuilder;
    pub struct LoopNodeBuilder;
    pub struct CallNodeBuilder;
    pub struct DynNodeBuilder;
    pub struct ExternalNodeBuilder;

    impl MastForestContributor for JoinNodeBuilder {}
    impl MastForestContributor for SplitNodeBuilder {}
    impl MastForestContributor for LoopNodeBuilder {}
    impl MastForestContributor for CallNodeBuilder {}
    impl MastForestContributor for DynNodeBuilder {}

    impl BasicBlockNodeBuilder {
        pub fn from_op_batches(_: Vec<OpBatch>, _: Word) -> Self {
            unreached()
        }
    }
    impl JoinNodeBuilder {
        pub fn new(_: [MastNodeId; 2]) -> Self {
            unreached()
        }
    }
    impl SplitNodeBuilder {
        pub fn new(_: [MastNodeId; 2]) -> Self {
            unreached()
        }
    }
    impl LoopNodeBuilder {
        pub fn new(_: MastNodeId) -> Self {
            unreached()
        }
    }
    impl CallNodeBuilder {
        pub fn new(_: MastNodeId) -> Self {
            unreached()
        }
        pub fn new_syscall(_: MastNodeId) -> Self {
            unreached()
        }
    }
    impl DynNodeBuilder {
        pub fn new_dyn() -> Self {
            unreached()
        }
        pub fn new_dyncall() -> Self {
            unreached()
        }
    }
    impl ExternalNodeBuilder {
        pub fn new(_: Word) -> Self {
            unreached()
        }
    }

    pub enum MastNodeBuilder {
        BasicBlock(BasicBlockNodeBuilder),
        Join(JoinNodeBuilder),
        Split(SplitNodeBuilder),
        Loop(LoopNodeBuilder),
        Call(CallNodeBuilder),
        Dyn(DynNodeBuilder),
        External(ExternalNodeBuilder),
    }

    impl MastNodeBuilder {
        pub fn build_linked(self) -> Result<MastNode, DeserializationError> {
            unreached()
        }
    }
}
