//! What agents send, read over lent memory.

use crate::{
    lent::{Arguments, Head},
    sys::{self, Action, Pair},
    Answer, FrameType, Metadata,
};

/// A frame of an agent that was read: its bytes, and its records at the front of the tables that were lent for them.
#[derive(Clone, Copy, Debug)]
pub struct AgentFrame<'a> {
    bytes: &'a [u8],
    kind: FrameType,
    metadata: Metadata,
    pairs: &'a [Pair],
    actions: &'a [Action],
}

/// Reads the frame at the front of `input`, one that an agent sends: an AGENT-HELLO or an AGENT-DISCONNECT, which hold a KV list, or an
/// ACK, which holds actions. Any other is refused with [`crate::Refusal::AGENTS`]. What stands behind it is not looked at.
///
/// ```
/// use muleflurry::{lent::{self, Action, Pair}, AGREED_FRAME};
///
/// let input = b"\0\0\0\x10\x67\0\0\0\x01\x01\x02\x01\x03\x02\x03err\x03\x07";
/// let (mut pairs, mut actions) = ([Pair::default(); 8], [Action::default(); 8]);
///
/// let ack = lent::read_agent_frame(input, AGREED_FRAME, &mut pairs, &mut actions).unwrap();
/// let set = ack.action_records()[0];
/// assert_eq!((set.action, set.scope, set.kind, set.a), (1, 2, 3, 7));
/// assert_eq!(&ack.bytes()[set.name_start as usize..][..set.name_len as usize], b"err");
/// ```
#[inline]
pub fn read_agent_frame<'a>(
    input: &'a [u8],
    limit: u32,
    pairs: &'a mut [Pair],
    actions: &'a mut [Action],
) -> Result<AgentFrame<'a>, Answer> {
    let (mut head, mut at) = ([0; 6], 0);
    let (lent_pairs, lent_actions) = (Pair::numbers_mut(pairs), Action::numbers_mut(actions));
    // SAFETY: each slice is lent with its length, the head has six numbers, and nothing lent overlaps.
    let number = unsafe {
        sys::spop_read_agent_frame(
            input.as_ptr(),
            input.len(),
            limit,
            lent_pairs.as_mut_ptr(),
            lent_pairs.len(),
            lent_actions.as_mut_ptr(),
            lent_actions.len(),
            &mut head,
            &mut at,
        )
    };
    let (kind, metadata, counts, used) = Head::told(number, at, head)?.parts();
    Ok(AgentFrame { bytes: &input[..used], kind, metadata, pairs: &pairs[..counts[0]], actions: &actions[..counts[1]] })
}

impl<'a> AgentFrame<'a> {
    pub fn kind(&self) -> FrameType {
        self.kind
    }

    /// The ids, and FIN alone: no other flags are accepted.
    pub fn metadata(&self) -> Metadata {
        self.metadata
    }

    /// The frame's bytes, with its length bytes. The next frame starts right behind them.
    pub fn bytes(&self) -> &'a [u8] {
        self.bytes
    }

    /// How many bytes the frame has, with its length bytes.
    pub fn used(&self) -> usize {
        self.bytes.len()
    }

    /// The pairs of a KV list in the order of the bytes. An ACK has none.
    pub fn pairs(&self) -> Arguments<'a> {
        Arguments::of(self.bytes, self.pairs)
    }

    /// The records of the pairs. Starts count in [`AgentFrame::bytes`].
    pub fn pair_records(&self) -> &'a [Pair] {
        self.pairs
    }

    /// The records of the actions, in the order of the bytes. Starts count in [`AgentFrame::bytes`].
    pub fn action_records(&self) -> &'a [Action] {
        self.actions
    }
}
