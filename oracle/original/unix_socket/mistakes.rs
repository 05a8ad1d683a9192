// One wrong token each, put into a build-time copy of the original: the comparison must see it.
// (what it is, the text, the text with the mistake); each text stands once in the file.
const MISTAKES: &[(&str, &str, &str)] = &[
    ("room is asked after the empty buffer", "if free == 0 {", "if free == 0 && !buf.is_empty() {"),
    (
        "one item more",
        "items.len() + pending > MAX_PENDING_ATTACHED",
        "items.len() + pending > MAX_PENDING_ATTACHED + 1",
    ),
    ("one item less", "pub const MAX_PENDING_ATTACHED: usize = 256;", "pub const MAX_PENDING_ATTACHED: usize = 255;"),
    (
        "items without bytes",
        "return Err(EINVAL);\n            }\n            let pending",
        "return Err(ENOBUFS);\n            }\n            let pending",
    ),
    (
        "items at the last byte",
        "self.attachments.insert(self.written_total, items)",
        "self.attachments.insert(self.written_total + byte_count as u64 - 1, items)",
    ),
    (
        "a take crosses into the next group",
        "byte_count = byte_count.min(usize::try_from(next - start)",
        "byte_count = byte_count.max(0 * (next - start) as usize).min(usize::try_from(u64::MAX)",
    ),
    (
        "a plain read keeps the items",
        ".filter(|_| policy == AttachedItems::Take)",
        ".filter(|_| policy != AttachedItems::Take)",
    ),
    ("shutdown of reading keeps the items", "self.attachments.clear();", ""),
    (
        "a bound name is free",
        "if bound.get(&path).is_some_and(|w| w.upgrade().is_some()) {",
        "if bound.get(&path).is_some_and(|w| w.upgrade().is_none()) {",
    ),
    ("unbound listens", "State::Unbound => Err(EDESTADDRREQ),", "State::Unbound => Err(EINVAL),"),
    ("the same backlog wakes", "let has_more_room = backlog > *b;", "let has_more_room = backlog >= *b;"),
    ("the backlog is not replaced", "*b = backlog;", ""),
    ("the newest server first", "pending.pop_front()", "pending.pop_back()"),
    (
        "a connected caller",
        "State::Connected { .. } => return Err(EISCONN),",
        "State::Connected { .. } => return Err(EINVAL),",
    ),
    ("a bound caller", "State::Bound(_) => return Err(EINVAL),", "State::Bound(_) => return Err(EOPNOTSUPP),"),
    ("the backlog allows one more", "if pending.len() >= *backlog {", "if pending.len() > *backlog {"),
    ("connect does not wake the listener", "        listener.waiters.notify_all();\n", ""),
    (
        "connect does not wake the caller",
        "        // The connecting socket becomes writable.\n        self.waiters.notify_all();\n",
        "",
    ),
    (
        "recvmsg of an empty buffer",
        "if buf.is_empty() {\n            return Err(EINVAL);\n        }\n        self.drain",
        "if buf.is_empty() {\n            return Err(ENOTCONN);\n        }\n        self.drain",
    ),
    ("the end of the stream", "*inbox_closed || peer.upgrade().is_none()", "*inbox_closed && peer.upgrade().is_none()"),
    (
        "a closed outbox",
        "if *outbox_closed {\n            return Err(EPIPE);",
        "if *outbox_closed {\n            return Err(ENOTCONN);",
    ),
    ("a gone peer", "let peer = peer.upgrade().ok_or(EPIPE)?;", "let peer = peer.upgrade().ok_or(ENOTCONN)?;"),
    (
        "shutdown of writing is reading",
        "matches!(how, ShutdownHow::Write | ShutdownHow::Both)",
        "matches!(how, ShutdownHow::Read | ShutdownHow::Both)",
    ),
    ("the peer's inbox stays open", "*inbox_closed |= shut_write;", ""),
    ("the peer's outbox stays open", "*outbox_closed |= shut_read;", ""),
    ("reading leaves the inbox open", "inbox.discard();\n            *inbox_closed = true;", "inbox.discard();"),
    ("a full inbox is writable", "inbox.bytes.len() < SOCKET_BUFFER_BYTES", "inbox.bytes.len() <= SOCKET_BUFFER_BYTES"),
    (
        "hung up is not readable",
        "readable: true,\n                writable: false,",
        "readable: false,\n                writable: false,",
    ),
    (
        "close of a name wakes nobody",
        "                drop(bound);\n                self.registry.waiters.notify_all();",
        "                drop(bound);",
    ),
    (
        "accept does not wake the registry",
        "        self.registry.waiters.notify_all();\n        Ok(peer)",
        "        Ok(peer)",
    ),
];
