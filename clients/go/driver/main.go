// The Go client, driven by the lines of docs/CONFORMANCE.md.
package main

import (
	"bufio"
	"context"
	"encoding/json"
	"errors"
	"fmt"
	"io"
	"os"
	"sync"
	"time"

	relay "relay/client"
)

type line struct {
	Do, URL, Text string
	Key           int
	View          []relay.Shown
	Patch         relay.Patch
	Base          *int64
	Optimistic    bool
	ReadOnly      bool
	Status        int
}

type driver struct {
	board   *relay.Board
	first   []relay.Shown // the first view
	link    *link
	opens   chan *link    // the next handshake; nil if it fails
	status  int           // with which a handshake that fails is answered; 0 if it is not
	rests   chan struct{} // the client waits: for a message or for a handshake
	pending map[int]func() map[string]any
	lock    sync.Mutex // of what is written
	out     *json.Encoder
}

// A connection that is played. Its texts end when it is cut or left.
type link struct {
	driver *driver
	texts  chan string
	ended  bool
}

func (l *link) Read() (string, error) {
	l.driver.rests <- struct{}{}
	text, more := <-l.texts
	if !more {
		return "", io.EOF
	}
	return text, nil
}

func (l *link) Write(text string) { l.driver.tell("says", text) }

func (l *link) Close() {
	if !l.ended {
		l.driver.tell("leaves", true)
		l.end()
	}
}

func (l *link) end() {
	l.ended = true
	close(l.texts)
}

func (d *driver) dial(url string) (relay.Socket, error) {
	d.tell("opens", url)
	d.rests <- struct{}{}
	if next := <-d.opens; next != nil {
		return next, nil
	}
	return nil, &relay.HandshakeFailed{URL: url, Status: d.status, Err: errors.New("no connection")}
}

func (d *driver) tell(word string, value any) { d.write(map[string]any{word: value}) }

func (d *driver) write(line map[string]any) {
	d.lock.Lock()
	defer d.lock.Unlock()
	d.out.Encode(line)
}

func (d *driver) do(words line) error {
	switch words.Do {
	case "connect":
		return d.connect(words)
	case "accept":
		d.link = &link{driver: d, texts: make(chan string)}
		d.opens <- d.link
		<-d.rests
	case "fail":
		d.status = words.Status
		d.opens <- nil
		<-d.rests
	case "hear":
		d.link.texts <- words.Text
		<-d.rests
	case "cut":
		d.link.end()
		<-d.rests
	case "edit":
		d.edit(words)
	case "endRoom":
		d.endRoom(words)
	case "will":
		d.will(words)
	case "watch":
		d.watch(words)
	case "look":
		d.tellEnds()
		d.look()
	case "end":
		d.board.Close()
	default:
		return fmt.Errorf("no such line: %q", words.Do)
	}
	return nil
}

func (d *driver) connect(words line) error {
	address := words.URL
	if words.ReadOnly {
		address = relay.WatchAddress(address)
	}
	dial := func(context.Context) (relay.Socket, error) { return d.dial(address) }
	soon := relay.Options{FirstWait: 2 * time.Millisecond, LongestWait: 2 * time.Millisecond}
	soon.ReadOnly = words.ReadOnly
	board, err := relay.ConnectBy(context.Background(), dial, words.View, soon)
	if err != nil {
		return err
	}
	d.board, d.first = board, words.View
	<-d.rests
	return nil
}

func (d *driver) endRoom(words line) {
	answer, err := d.board.End()
	if err != nil {
		d.write(map[string]any{"ends": words.Key, "invalid": err.Error()})
		return
	}
	d.pending[words.Key] = func() map[string]any { return answered(answer) }
}

func (d *driver) edit(words line) {
	var options []relay.EditOption
	if words.Base != nil {
		options = append(options, relay.On(relay.Revision{Rev: *words.Base}))
	}
	if words.Optimistic {
		options = append(options, relay.Optimistic)
	}
	answer, err := d.board.Send(words.Patch, options...)
	if err != nil {
		d.write(map[string]any{"ends": words.Key, "invalid": err.Error()})
		return
	}
	d.pending[words.Key] = func() map[string]any { return answered(answer) }
}

func (d *driver) will(words line) {
	willing, err := d.board.SendWill(words.Patch)
	if err != nil {
		d.write(map[string]any{"ends": words.Key, "invalid": err.Error()})
		return
	}
	d.pending[words.Key] = func() map[string]any { return left(willing) }
}

// left is the end of a will; nil if it has none yet.
func left(willing *relay.Willing) map[string]any {
	select {
	case <-willing.Done():
	default:
		return nil
	}
	if err := willing.Wait(context.Background()); err != nil {
		return failed(err)
	}
	return map[string]any{"willing": true}
}

// answered is the end of an edit; nil if it has none yet.
func answered(answer *relay.Answer) map[string]any {
	select {
	case <-answer.Done():
	default:
		return nil
	}
	made, err := answer.Wait(context.Background())
	if err != nil {
		return failed(err)
	}
	return map[string]any{"done": made.Rev}
}

func (d *driver) watch(words line) {
	asked := d.board.Ask(words.View)
	d.pending[words.Key] = func() map[string]any { return shown(asked) }
}

// shown is the end of a watch; nil if it has none yet.
func shown(asked *relay.Asked) map[string]any {
	select {
	case <-asked.Done():
	default:
		return nil
	}
	change, err := asked.Wait(context.Background())
	if err != nil {
		return failed(err)
	}
	return map[string]any{"shown": change.Confirmed}
}

func failed(err error) map[string]any {
	var refused *relay.Refused
	var unknown *relay.Unknown
	switch {
	case errors.As(err, &refused):
		return map[string]any{"refused": refused.Fault, "at": refused.At, "rev": refused.Rev}
	case errors.As(err, &unknown):
		return map[string]any{"unknown": true}
	case errors.Is(err, relay.ErrSuperseded):
		return map[string]any{"superseded": true}
	}
	return map[string]any{"closed": true}
}

func (d *driver) look() {
	held := map[string]any{"view": d.first, "slots": nil, "rev": nil, "epoch": nil, "shown": nil}
	if change, isThere := d.board.Shown(); isThere {
		held = map[string]any{
			"view": change.View, "slots": change.Confirmed, "shown": change.Slots,
			"rev": change.Rev, "epoch": change.Epoch,
		}
	}
	d.tell("held", held)
}

func (d *driver) tellEnds() {
	for key, pending := range d.pending {
		if end := pending(); end != nil {
			delete(d.pending, key)
			end["ends"] = key
			d.write(end)
		}
	}
}

func main() {
	d := &driver{opens: make(chan *link), rests: make(chan struct{}), out: json.NewEncoder(os.Stdout)}
	d.pending = map[int]func() map[string]any{}
	d.tell("traits", []string{"optimistic", "read-only", "end-room", "wills"})
	lines := bufio.NewReader(os.Stdin)
	for {
		text, err := lines.ReadString('\n')
		if err == io.EOF {
			return
		}
		var words line
		if err == nil {
			err = json.Unmarshal([]byte(text), &words)
		}
		if err == nil {
			err = d.do(words)
		}
		if err != nil {
			fmt.Fprintln(os.Stderr, "driver:", err)
			os.Exit(1)
		}
	}
}
