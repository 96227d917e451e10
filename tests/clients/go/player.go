// The Go client, played by lines as tests/clients/player.js is: each is a JSON object with `id` and
// `do`, and has one answer with that `id`.
package main

import (
	"bufio"
	"context"
	"encoding/json"
	"errors"
	"os"
	"sync"
	"time"

	relay "relay/client"
)

type asked struct {
	ID     int
	Do     string
	Patch  relay.Patch
	Logged relay.Operation
	View   []relay.Shown
	Based  bool
	How    string
	Tag    string
}

type told map[string]any

// Slots that were handed out, and what they were then.
type handed struct {
	slots []relay.Slot
	text  string
}

type player struct {
	board, counter *relay.Board
	changer        *relay.Board
	showing        *showing
	first          []relay.Shown
	lock           sync.Mutex
	handed         []handed
}

var background = context.Background()

func begin(url string, view []relay.Shown, readOnly bool) (*player, error) {
	p := &player{first: view}
	soon := relay.Options{FirstWait: 10 * time.Millisecond, LongestWait: 100 * time.Millisecond}
	soon.ReadOnly = readOnly
	counter, err := relay.Connect(background, url, relay.View("/count"), soon)
	if err != nil {
		return nil, err
	}
	if p.changer, err = relay.Connect(background, url, relay.View("/changed"), soon); err != nil {
		return nil, err
	}
	if p.showing, err = showIn(url, view, soon); err != nil {
		return nil, err
	}
	soon.OnChange = p.keep
	board, err := relay.Connect(background, url, view, soon)
	p.board, p.counter = board, counter
	return p, err
}

func (p *player) act(words asked) told {
	switch words.Do {
	case "edit":
		return p.edit(words)
	case "count":
		return p.count(words.Logged)
	case "watch":
		if _, err := p.board.Watch(background, words.View); err != nil {
			return fault(err)
		}
		return told{}
	case "change":
		return p.change(words.Tag)
	case "show":
		return p.showing.show(words)
	case "lines":
		return p.showing.told()
	}
	return p.look()
}

func (p *player) edit(words asked) told {
	seen, err := p.board.Ready(background)
	if err != nil {
		return fault(err)
	}
	if words.Based || words.How == "based" {
		return answer(p.board, words.Patch, seen)
	}
	made, err := p.board.Edit(background, words.Patch)
	if err != nil {
		return fault(err)
	}
	return told{"rev": made.Rev}
}

// answer is what an edit comes to that is made of what was seen, and done to that alone.
func answer(board *relay.Board, patch relay.Patch, seen relay.Change) told {
	answered := told{}
	made, err := board.Edit(background, patch, relay.On(seen.Revision))
	if err == nil {
		answered["rev"] = made.Rev
	} else {
		answered = fault(err)
	}
	answered["base"], answered["of"] = seen.Rev, seen.Epoch
	return answered
}

// count reads the count and writes the next one, until nobody was faster.
func (p *player) count(logged relay.Operation) told {
	seen, err := p.counter.Ready(background)
	for err == nil {
		var count int
		if count, err = relay.As[int](seen.Confirmed[0]); err != nil {
			break
		}
		answered := answer(p.counter, relay.Patch{relay.Replace("/count", count+1), logged}, seen)
		if answered["fault"] != "stale" {
			return answered
		}
		seen, err = p.counter.Sync(background)
	}
	return fault(err)
}

// change raises a number and leaves a tag, by an edit that is made anew if others were faster.
func (p *player) change(tag string) told {
	made, err := p.changer.Change(background, func(seen relay.Change) (relay.Patch, error) {
		changed, err := relay.As[int](seen.Confirmed[0])
		patch := relay.Patch{relay.Replace("/changed", changed+1), relay.Add("/log/-", tag)}
		return patch, err
	})
	if err != nil {
		return fault(err)
	}
	return told{"rev": made.Rev}
}

func (p *player) keep(change relay.Change) {
	text, _ := json.Marshal(change.Slots)
	p.lock.Lock()
	defer p.lock.Unlock()
	p.handed = append(p.handed, handed{change.Slots, string(text)})
	if len(p.handed) > 20 {
		p.handed = p.handed[1:]
	}
}

func (p *player) look() told {
	seen, isThere := p.board.Shown()
	look := told{"view": p.first, "slots": nil, "rev": nil, "state": p.board.State()}
	if isThere {
		look["view"], look["slots"], look["rev"] = seen.View, seen.Slots, seen.Rev
	}
	p.lock.Lock()
	defer p.lock.Unlock()
	look["spoiled"] = false
	for _, one := range p.handed {
		if text, _ := json.Marshal(one.slots); string(text) != one.text {
			look["spoiled"] = true
		}
	}
	return look
}

func fault(err error) told {
	var refused *relay.Refused
	var unknown *relay.Unknown
	switch {
	case errors.As(err, &refused):
		return told{"fails": "Refused", "fault": refused.Fault}
	case errors.As(err, &unknown):
		return told{"fails": "Unknown", "known": unknown.Rev}
	}
	return told{"fails": err.Error()}
}

func main() {
	var view []relay.Shown
	if err := json.Unmarshal([]byte(os.Args[2]), &view); err != nil {
		panic(err)
	}
	p, err := begin(os.Args[1], view, len(os.Args) > 3 && os.Args[3] == "watch")
	if err != nil {
		panic(err)
	}
	var lock sync.Mutex
	out := json.NewEncoder(os.Stdout)
	lines := bufio.NewScanner(os.Stdin)
	lines.Buffer(nil, 1<<24)
	for lines.Scan() {
		var words asked
		if err := json.Unmarshal(lines.Bytes(), &words); err != nil {
			panic(err)
		}
		go func() {
			answered := p.act(words)
			answered["id"] = words.ID
			lock.Lock()
			defer lock.Unlock()
			out.Encode(answered)
		}()
	}
}
