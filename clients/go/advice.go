package relay

// advice says what to do, for each word of a fault: the relay's (docs/PROTOCOL.md, "Messages"), and
// the client's own. Every client says the same.
var advice = map[string]string{
	"too-long":     "a request has at most 1,048,576 bytes: send it in parts",
	"not-json":     "it is no JSON, or nests more than 127 containers",
	"number":       "numbers are whole and have 64 bits: scale a fraction, or send a text",
	"shape":        "a member is missing or wrong, or the relay is too old for it",
	"too-many":     "a patch has at most 64 operations, a view 16 slots: split it",
	"unknown-op":   "an operation is add, remove, replace, move, copy or test",
	"pointer":      "a pointer is empty or begins with /; in a name ~1 is / and ~0 is ~",
	"missing":      "nothing stands there: look again, or add what is around it first",
	"not-index":    "there is a list, which takes an index, or - for its end",
	"past-end":     "the list is shorter: look again, or add at its end, by -",
	"no-container": "what is around it is no list and no object: write that first",
	"root":         "the whole document is not removed: replace it by null",
	"into-itself":  "a value does not move into itself: move it elsewhere, or copy it",
	"test-failed":  "another value stands there: look again, and make the edit of that",
	"too-deep":     "a document has at most 64 levels: nest less",
	"too-heavy":    "it is more than the relay takes: split it, or remove something first",
	"exhausted":    "the room has no revision left: go on in another room",
	"stale":        "somebody edited since: look again, and make the edit of that",
	"future":       "that revision is of another run of the relay: watch anew",
	"read-only":    "it only watches: connect again without that",
	"away":         "there is no connection: try again once there is one, or guard the edit",
	"changed":      "somebody changed that since: look again",
}
