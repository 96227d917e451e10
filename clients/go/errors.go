package relay

import (
	"errors"
	"fmt"
	"net/http"
	"net/url"
	"regexp"
	"strings"
)

var (
	// ErrClosed is how what was asked for fails if the board was closed before it was sent.
	ErrClosed = errors.New("relay: the board is closed")
	// ErrSuperseded is how a watch fails if another view was watched before its slots came.
	ErrSuperseded = errors.New("relay: another view was watched before its slots came")
	// ErrNotShown is how a place fails that the view does not show, or of which no slots came yet. So
	// does an End before the first slots.
	ErrNotShown = errors.New("relay: the view does not show it")

	errAstray = errors.New("relay: a message that does not follow from those before it")
	errMisfit = errors.New("relay: a patch that does not fit")
)

// Unknown is how an edit fails whose connection was lost before the answer: it may have been done,
// or not.
type Unknown struct {
	// Rev is the room's revision, if the edit had a base and was sent again: it was done by then, or
	// never will be. The document tells which, if the edit left a mark there. If it is nil, the edit
	// may still be done.
	Rev *int64
}

func (u *Unknown) Error() string {
	words := "relay: the connection was lost before the answer"
	if u.Rev != nil {
		words += fmt.Sprintf(", and the room is at revision %d", *u.Rev)
	}
	return words
}

// Refused is the relay's refusal of a request: nothing changed by it. Or the board refused it
// before it was sent: as stale an edit with a base of another run, as too-long a text by which the
// connection would end, as away an edit that is not guarded while the connection is lost, as
// changed an undo, as read-only each edit of a board that only watches.
type Refused struct {
	Fault string // docs/PROTOCOL.md, "Messages"
	At    *int64 // which operation or pointer is at fault, counted from 0; nil if no single one is
	Rev   *int64 // the room's revision, if it is stale
}

func (r *Refused) Error() string {
	words := "relay: refused as " + r.Fault
	if r.At != nil {
		words += fmt.Sprintf(" at %d", *r.At)
	}
	if r.Rev != nil {
		words += fmt.Sprintf(", the room is at revision %d", *r.Rev)
	}
	if what, known := advice[r.Fault]; known {
		words += ": " + what
	}
	return words
}

// HandshakeFailed is why there is no connection, as Options.OnState is told of it. The board goes
// on trying, but for a first answer that is a 404: then the address is none of a room. A board that
// is ReadOnly goes on also then: the room may begin later.
type HandshakeFailed struct {
	URL    string // as it may be shown, without a password
	Status int    // of the answer, as 404; 0 if nothing answered
	Err    error  // of the library
}

func (h *HandshakeFailed) Error() string {
	shown := shownAddress(h.URL)
	if h.Status == 0 {
		advice := "start the relay there, or check the address, the port and --per-peer"
		if strings.HasPrefix(h.URL, "wss") {
			advice += ", or take ws://: the relay itself has no TLS"
		}
		return fmt.Sprintf("relay: nothing answers at %s: %s (%v)", shown, advice, h.Err)
	}
	words := fmt.Sprintf("relay: %s refuses the connection, with %d", shown, h.Status)
	if h.Status == http.StatusNotFound {
		return words + ": " + notFound(h.URL)
	}
	if cause, known := causes[h.Status]; known {
		words += ": " + cause
	}
	return words
}

// causes are of the statuses that say it by themselves.
var causes = map[int]string{
	http.StatusOK:                 noRooms,
	http.StatusUnauthorized:       "the name or the password is missing or wrong",
	http.StatusForbidden:          "it lets no page of this origin in (--origin)",
	http.StatusTooManyRequests:    "too many requests or connections of this address",
	http.StatusServiceUnavailable: "it is full (--sessions, --rooms), --closed, or stopping",
}

func (h *HandshakeFailed) Unwrap() error { return h.Err }

var (
	ofRoom = regexp.MustCompile(`^/rooms/[\w-]+(/watch)?$`)
	// watched is an address as WatchAddress makes it. What stands before /rooms/ is a proxy's concern.
	watched = regexp.MustCompile(`^wss?://[^?#]+/rooms/[\w-]{1,64}/watch$`)
)

// user is what stands before the host: a name and a password, or a token. A password that is not
// escaped may have a slash, so it ends at the last @.
var user = regexp.MustCompile(`(?s)^([\w+.-]+:)?([/\\]*)([^:]*:)?.*@`)

// shownAddress is an address as it may be shown: with *** in place of a password, or of a name that
// has none.
func shownAddress(address string) string {
	return user.ReplaceAllString(address, "${1}${2}${3}***@")
}

const noRooms = "what answers there has no rooms, or is the --admin port"

// notFound says what is wrong with an address, as far as it shows.
func notFound(address string) string {
	parts, err := url.Parse(address)
	switch {
	case watched.MatchString(address):
		return "there is no room of this name yet, or " + noRooms
	case err == nil && !ofRoom.MatchString(parts.Path):
		return "a room is at /rooms/NAME, and this path is " + shownAddress(parts.Path)
	case err == nil && parts.RawQuery != "":
		return "leave out the `?` and what follows"
	default:
		return noRooms
	}
}

// isNoRoom says whether the address is none of a room. One that is only watched may begin later.
func isNoRoom(err error, readOnly bool) bool {
	var failed *HandshakeFailed
	if !errors.As(err, &failed) || failed.Status != http.StatusNotFound {
		return false
	}
	return !readOnly || !watched.MatchString(failed.URL)
}

func isStale(err error) bool {
	var refused *Refused
	return errors.As(err, &refused) && refused.Fault == "stale"
}
