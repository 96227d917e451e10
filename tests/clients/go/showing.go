package main

import (
	"sync"

	relay "relay/client"
)

// An edit that shows at once, and what it came to.
type shownEdit struct {
	Patch relay.Patch `json:"patch"`
	Back  bool        `json:"back"`
	Done  *int64      `json:"done"`
	Epoch int64       `json:"epoch"`
}

// showing is what is shown over time, beside the edits that were asked for: each line says how the
// slots were, how many edits had been asked for, and which of those had been taken back.
type showing struct {
	board   *relay.Board
	asking  sync.Mutex // one edit is asked for at a time
	lock    sync.Mutex
	lines   []map[string]any
	edits   []*shownEdit
	pending int // of the last line
	asked   int
}

func showIn(url string, view []relay.Shown, options relay.Options) (*showing, error) {
	s := &showing{lines: []map[string]any{}}
	options.OnChange, options.OnTakenBack = s.line, s.takenBack
	board, err := relay.Connect(background, url, view, options)
	s.board = board
	return s, err
}

// line is told of each change in order. Each edit has a change of its own in which it waits, so
// more wait than before exactly if one was asked for.
func (s *showing) line(change relay.Change) {
	s.lock.Lock()
	defer s.lock.Unlock()
	if change.Pending > s.pending {
		s.asked++
	}
	s.pending = change.Pending
	s.lines = append(s.lines, map[string]any{
		"view": change.View, "slots": change.Slots, "confirmed": change.Confirmed,
		"rev": change.Rev, "epoch": change.Epoch, "pending": change.Pending,
		"asked": s.asked, "back": s.back(),
	})
}

func (s *showing) back() []int {
	back := []int{}
	for k, edit := range s.edits {
		if edit.Back {
			back = append(back, k)
		}
	}
	return back
}

// takenBack is told behind the change that no longer has the edit: the last line is that.
func (s *showing) takenBack(patch relay.Patch, _ error) {
	s.lock.Lock()
	defer s.lock.Unlock()
	tag := patch[len(patch)-1].Value
	for k, edit := range s.edits {
		if edit.Patch[len(edit.Patch)-1].Value == tag {
			edit.Back = true
			last := s.lines[len(s.lines)-1]
			last["back"] = append(last["back"].([]int), k)
		}
	}
}

// show makes an edit that shows at once, whose last operation leaves a tag.
func (s *showing) show(words asked) told {
	seen, err := s.board.Ready(background)
	if err != nil {
		return fault(err)
	}
	edit := &shownEdit{Patch: words.Patch}
	options := []relay.EditOption{relay.Optimistic}
	if words.Based {
		options = append(options, relay.On(seen.Revision))
	}
	answer, err := s.send(edit, options)
	if err != nil {
		return fault(err)
	}
	made, err := answer.Wait(background)
	if err != nil {
		return fault(err)
	}
	s.lock.Lock()
	defer s.lock.Unlock()
	edit.Done, edit.Epoch = &made.Rev, made.Epoch
	return told{"rev": made.Rev}
}

func (s *showing) send(edit *shownEdit, options []relay.EditOption) (*relay.Answer, error) {
	s.asking.Lock()
	defer s.asking.Unlock()
	s.lock.Lock()
	s.edits = append(s.edits, edit)
	s.lock.Unlock()
	return s.board.Send(edit.Patch, options...)
}

// told is all lines so far, and what the edits came to.
func (s *showing) told() told {
	s.lock.Lock()
	defer s.lock.Unlock()
	lines := s.lines
	s.lines = []map[string]any{}
	last := told{"slots": nil, "confirmed": nil, "pending": 0, "state": s.board.State()}
	if seen, isThere := s.board.Shown(); isThere {
		last["slots"], last["confirmed"], last["pending"] = seen.Slots, seen.Confirmed, seen.Pending
	}
	return told{"lines": lines, "edits": s.edits, "last": last}
}
