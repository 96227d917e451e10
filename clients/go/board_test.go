package relay

import (
	"context"
	"encoding/json"
	"errors"
	"fmt"
	"reflect"
	"strings"
	"testing"
	"time"
)

// played is a connection that a test plays.
type played struct {
	texts, said chan string
}

func (p *played) Read() (string, error) {
	text, more := <-p.texts
	if !more {
		return "", errors.New("lost")
	}
	return text, nil
}

func (p *played) Write(text string) { p.said <- text }

func (p *played) Close() {}

// A room that is played to a board, connection by connection.
type playedRoom struct {
	*testing.T
	board   *Board
	dialled chan *played
	link    *played
}

// connected is a board of one view that has begun to connect.
func connected(t *testing.T, options Options, pointer string) *playedRoom {
	room := &playedRoom{T: t, dialled: make(chan *played)}
	options.FirstWait, options.LongestWait = time.Millisecond, time.Millisecond
	dial := func(ctx context.Context) (Socket, error) {
		select {
		case link := <-room.dialled:
			return link, nil
		case <-ctx.Done():
			return nil, ctx.Err()
		}
	}
	board, err := ConnectBy(context.Background(), dial, View(pointer), options)
	if err != nil {
		t.Fatal(err)
	}
	t.Cleanup(board.Close)
	room.board = board
	return room
}

// begun is one whose slots have come.
func begun(t *testing.T, options Options, pointer, slots string) *playedRoom {
	room := connected(t, options, pointer)
	room.enter(7, 1)
	room.reply(`"kind":"watching"`)
	room.hear(`{"kind":"snapshot","rev":1,"view":` + slots + `}`)
	if _, err := room.board.Ready(soon(t)); err != nil {
		t.Fatal(err)
	}
	return room
}

func soon(t *testing.T) context.Context {
	ctx, cancel := context.WithTimeout(context.Background(), 20*time.Second)
	t.Cleanup(cancel)
	return ctx
}

// enter is the board's next connection, on which the welcome comes.
func (r *playedRoom) enter(epoch, rev int) {
	r.link = &played{make(chan string), make(chan string, onTheWay)}
	r.dialled <- r.link
	r.hear(fmt.Sprintf(`{"kind":"welcome","epoch":%d,"rev":%d}`, epoch, rev))
}

func (r *playedRoom) hear(text string) { r.link.texts <- text }

type said struct {
	ID    int64
	Do    string
	Base  *int64
	Patch Patch
}

// word is what a request asks for, and of an edit its first operation.
func (s said) word() string {
	if s.Do == "edit" {
		return s.Do + " " + s.Patch[0].Op
	}
	return s.Do
}

// request is the board's next one.
func (r *playedRoom) request() said {
	r.Helper()
	var request said
	select {
	case text := <-r.link.said:
		if err := read(text, &request); err != nil {
			r.Fatal(err)
		}
	case <-time.After(20 * time.Second):
		r.Fatal("it says nothing")
	}
	return request
}

// reply answers the board's next request, and gives it.
func (r *playedRoom) reply(members string) said {
	r.Helper()
	request := r.request()
	r.hear(fmt.Sprintf(`{"id":%d,%s}`, request.ID, members))
	return request
}

func (r *playedRoom) says(words ...string) {
	r.Helper()
	for _, wanted := range words {
		if word := r.request().word(); word != wanted {
			r.Fatalf("it says %s, and not %s", word, wanted)
		}
	}
}

func (r *playedRoom) shows(wanted string) {
	r.Helper()
	seen, _ := r.board.Shown()
	if told, _ := json.Marshal(seen.Slots); string(told) != wanted {
		r.Fatalf("it shows %s, and not %s", told, wanted)
	}
}

func (r *playedRoom) send(patch Patch, options ...EditOption) *Answer {
	r.Helper()
	answer, err := r.board.Send(patch, options...)
	if err != nil {
		r.Fatal(err)
	}
	return answer
}

func refusedAs(err error, fault string) bool {
	var refused *Refused
	return errors.As(err, &refused) && refused.Fault == fault
}

var cards = map[string]any{"cards": []string{}}
var push = Patch{Add("/cards/-", "tea")}

func TestWhatIsEditedDuringARestartGoesInBehindTheBeginning(t *testing.T) {
	room := connected(t, Options{Begin: cards}, "/cards")
	room.enter(7, 4)
	room.reply(`"kind":"refused","fault":"test-failed","at":0`)
	room.reply(`"kind":"watching"`)
	room.hear(`{"kind":"snapshot","rev":4,"view":[[["milk"]]]}`)
	if seen, err := room.board.Ready(soon(t)); err != nil || seen.Rev != 4 {
		t.Fatal(seen, err)
	}
	close(room.link.texts)
	room.enter(8, 0)
	room.send(push)
	room.says("edit test", "resume", "edit add")
}

func TestAnotherRefusalOfTheBeginningEndsTheBoard(t *testing.T) {
	room := connected(t, Options{Begin: cards}, "/cards")
	answer := room.send(push)
	room.enter(7, 0)
	room.reply(`"kind":"refused","fault":"too-heavy","at":1`)
	<-room.board.Done()
	if err := room.board.Err(); !refusedAs(err, "too-heavy") {
		t.Error(err)
	}
	var unknown *Unknown
	if _, err := answer.Wait(soon(t)); !errors.As(err, &unknown) || unknown.Rev != nil {
		t.Error(err)
	}
	if _, err := room.board.Edit(soon(t), push); err != ErrClosed {
		t.Error(err)
	}
	if _, err := room.board.Ready(soon(t)); !refusedAs(err, "too-heavy") {
		t.Error(err)
	}
}

func TestABeginningWhoseTextWouldEndTheConnectionEndsTheBoard(t *testing.T) {
	room := connected(t, Options{Begin: strings.Repeat("x", longest)}, "/cards")
	answer := room.send(push)
	room.enter(7, 0)
	<-room.board.Done()
	if err := room.board.Err(); !refusedAs(err, "too-long") {
		t.Error(err)
	}
	if _, err := answer.Wait(soon(t)); err != ErrClosed || len(room.link.said) > 0 {
		t.Error(err)
	}
}

func TestTheContextEndsTheBoard(t *testing.T) {
	ctx, cancel := context.WithCancel(context.Background())
	dial := func(ctx context.Context) (Socket, error) { <-ctx.Done(); return nil, ctx.Err() }
	board, err := ConnectBy(ctx, dial, View(""), Options{})
	if err != nil {
		t.Fatal(err)
	}
	cancel()
	<-board.Done()
	if board.State() != Closed || board.Err() != nil {
		t.Error(board.State(), board.Err())
	}
}

func TestWhatTheRelayDoesNotTakeIsRefusedByTheCall(t *testing.T) {
	for _, begin := range []any{func() {}, 1.5, map[string]any{"n": uint64(1 << 63)}} {
		options := Options{Begin: begin}
		if _, err := Connect(context.Background(), "ws://h/rooms/a", nil, options); err == nil {
			t.Errorf("%T is taken", begin)
		}
	}
	for _, url := range []string{"http://h/rooms/a", "ws://h/rooms/", "ws://h/rooms/a?b", "a"} {
		if _, err := Connect(context.Background(), url, nil, Options{}); err == nil {
			t.Errorf("%s is taken", url)
		}
	}
}

func TestWhatIsUnguardedIsRefusedWhileAway(t *testing.T) {
	room := begun(t, Options{GuardedOnly: true}, "/cards", `[[["a","b"]]]`)
	close(room.link.texts)
	for room.board.State() == Open {
		time.Sleep(time.Millisecond)
	}
	if _, err := room.board.Edit(soon(t), push); !refusedAs(err, "away") {
		t.Fatal(err)
	}
	removal, err := room.board.At("/cards/0").Remove()
	if err != nil {
		t.Fatal(err)
	}
	room.shows(`[[["b"]]]`)
	room.enter(7, 1)
	room.reply(`"kind":"resumed","how":"nothing"`)
	room.reply(`"kind":"done","rev":2`)
	if made, err := removal.Wait(soon(t)); made != (Revision{2, 7}) || err != nil {
		t.Error(made, err)
	}
}

func TestARefusedEditIsTakenBack(t *testing.T) {
	told := make(chan string, 10)
	room := begun(t, Options{
		OnChange:    func(change Change) { told <- fmt.Sprint(change.Pending, change.Slots) },
		OnTakenBack: func(_ Patch, err error) { told <- err.Error() },
	}, "/cards", `[[["a"]]]`)
	if _, err := room.board.At("/cards").Push("b"); err != nil {
		t.Fatal(err)
	}
	room.reply(`"kind":"refused","fault":"missing","at":0`)
	for _, wanted := range []string{
		"0 [[[a]]]", "1 [[[a b]]]", "0 [[[a]]]",
		"relay: refused as missing at 0: nothing stands there: " +
			"look again, or add what is around it first",
	} {
		if word := <-told; word != wanted {
			t.Fatalf("it tells %s, and not %s", word, wanted)
		}
	}
}

// anotherRun is entered in the place of the one before, whose slots are still shown.
func (r *playedRoom) anotherRun() {
	r.Helper()
	close(r.link.texts)
	r.enter(8, 1)
	r.reply(`"kind":"resumed","how":"snapshot"`)
}

func TestWhatIsDoneInAnotherRunWaitsForTheSlotsOfThat(t *testing.T) {
	room := begun(t, Options{}, "/cards", `[[["a"]]]`)
	room.anotherRun()
	answer := room.send(push, Optimistic)
	room.reply(`"kind":"done","rev":1`)
	if made, err := answer.Wait(soon(t)); made != (Revision{1, 8}) || err != nil {
		t.Fatal(made, err)
	}
	room.shows(`[[["a","tea"]]]`)
	room.hear(`{"kind":"snapshot","rev":1,"view":[[["b","tea"]]]}`)
	room.hear(`{"kind":"patch","rev":2,"patch":[]}`) // the one before was taken by now
	if seen, _ := room.board.Shown(); seen.Pending != 0 {
		t.Error(seen)
	}
	room.shows(`[[["b","tea"]]]`)
}

func TestAnEditThatFailsAtOnceIsToldOfFirst(t *testing.T) {
	told := make(chan string, 10)
	room := begun(t, Options{
		OnChange:    func(change Change) { told <- fmt.Sprint(change.Pending, change.Slots) },
		OnTakenBack: func(_ Patch, err error) { told <- err.Error() },
	}, "/cards", `[[["a"]]]`)
	room.anotherRun()
	room.send(push, Optimistic, On(Revision{1, 7}))
	for _, wanted := range []string{
		"0 [[[a]]]", "1 [[[a tea]]]", "0 [[[a]]]",
		"relay: refused as stale, the room is at revision 1: " + advice["stale"],
	} {
		if word := <-told; word != wanted {
			t.Fatalf("it tells %s, and not %s", word, wanted)
		}
	}
}

func TestWhatMayTouchNoSlotIsNotWaitedFor(t *testing.T) {
	room := begun(t, Options{}, "/cards", `[[["a","b"]]]`)
	room.send(Patch{Move("/cards/0", "/cards/-")}, Optimistic)
	room.reply(`"kind":"done","rev":2`)
	if asked := room.reply(`"kind":"watching"`); asked.Do != "watch" {
		t.Fatal(asked)
	}
	if seen, _ := room.board.Shown(); seen.Pending != 1 {
		t.Fatal(seen)
	}
	room.hear(`{"kind":"snapshot","rev":2,"view":[[["b","a"]]]}`)
	room.hear(`{"kind":"patch","rev":3,"patch":[{"op":"remove","path":"/0/0/0"}]}`)
	room.hear(`{"kind":"patch","rev":4,"patch":[]}`) // the one before was taken by now
	if seen, _ := room.board.Shown(); seen.Pending != 0 || len(room.link.said) > 0 {
		t.Error(seen)
	}
	room.shows(`[[["a"]]]`)
}

func TestAWatchThatAnotherOneReplacesIsSuperseded(t *testing.T) {
	room := begun(t, Options{}, "/a", `[["a"]]`)
	watches := []*Asked{}
	for _, pointer := range []string{"/b", "/c", "/c"} {
		watches = append(watches, room.board.Ask(View(pointer)))
		room.reply(`"kind":"watching"`)
	}
	room.hear(`{"kind":"snapshot","rev":1,"view":[["c"]]}`)
	if _, err := watches[0].Wait(soon(t)); err != ErrSuperseded {
		t.Error(err)
	}
	for _, watch := range watches[1:] {
		if seen, err := watch.Wait(soon(t)); err != nil || !isSameView(seen.View, View("/c")) {
			t.Error(seen, err)
		}
	}
}

func TestAnEditWhoseAnswerWasLostIsSentAgain(t *testing.T) {
	room := begun(t, Options{}, "/n", `[[0]]`)
	raise := Patch{Replace("/n", 1)}
	based := room.send(raise, On(Revision{Rev: 1}))
	plain := room.send(raise)
	room.says("edit replace", "edit replace")
	close(room.link.texts)
	var unknown *Unknown
	if _, err := plain.Wait(soon(t)); !errors.As(err, &unknown) || unknown.Rev != nil {
		t.Fatal(err)
	}
	room.enter(7, 2)
	room.reply(`"kind":"resumed","how":"nothing"`)
	if again := room.reply(`"kind":"refused","fault":"stale","rev":2`); *again.Base != 1 {
		t.Fatal(again)
	}
	if _, err := based.Wait(soon(t)); !errors.As(err, &unknown) || *unknown.Rev != 2 {
		t.Fatal(err)
	}
}

func TestUndoAndRedo(t *testing.T) {
	room := begun(t, Options{}, "/cards", `[[["a","b"]]]`)
	room.send(Patch{Remove("/cards/0")})
	room.reply(`"kind":"done","rev":2`)
	stepped := make(chan error, 1)
	step := func(make func(context.Context) (bool, error)) {
		go func() {
			did, err := make(soon(t))
			if !did && err == nil {
				err = errors.New("there is nothing to take back")
			}
			stepped <- err
		}()
	}
	step(room.board.Undo)
	room.hear(`{"kind":"patch","rev":2,"patch":[{"op":"remove","path":"/0/0/0"}]}`)
	undoes := room.reply(`"kind":"done","rev":3`)
	back := Patch{Test("/cards/0", "b"), Add("/cards/0", "a")}
	if *undoes.Base != 2 || !reflect.DeepEqual(undoes.Patch, back) {
		t.Fatal(undoes)
	}
	room.shows(`[[["a","b"]]]`)
	if err := <-stepped; err != nil {
		t.Fatal(err)
	}
	step(room.board.Redo)
	room.hear(`{"kind":"patch","rev":3,"patch":[{"op":"add","path":"/0/0/0","value":"a"}]}`)
	again := room.reply(`"kind":"done","rev":4`)
	if !reflect.DeepEqual(again.Patch, Patch{Test("/cards/0", "a"), Remove("/cards/0")}) {
		t.Fatal(again)
	}
	if err := <-stepped; err != nil {
		t.Fatal(err)
	}
	room.hear(`{"kind":"patch","rev":4,"patch":[{"op":"remove","path":"/0/0/0"}]}`)
	room.hear(`{"kind":"patch","rev":5,"patch":[{"op":"replace","path":"/0/0/0","value":"c"}]}`)
	room.hear(`{"kind":"patch","rev":6,"patch":[]}`)
	if _, err := room.board.Undo(soon(t)); !refusedAs(err, "changed") {
		t.Fatal(err)
	}
	if did, err := room.board.Undo(soon(t)); did || err != nil {
		t.Fatal(did, err)
	}
}

func TestAnUpdateIsMadeAgainIfOthersWereFaster(t *testing.T) {
	room := begun(t, Options{}, "/n", `[[3]]`)
	place, raised := room.board.At("/n"), make(chan Revision)
	go func() {
		next := func(before int) (int, error) { return before + 1, nil }
		made, err := Update(soon(t), place, next)
		if err != nil {
			t.Error(err)
		}
		raised <- made
	}()
	if first := room.reply(`"kind":"refused","fault":"stale","at":null,"rev":2`); *first.Base != 1 {
		t.Fatal(first)
	}
	room.reply(`"kind":"watching"`)
	room.hear(`{"kind":"snapshot","rev":2,"view":[[7]]}`)
	again := room.reply(`"kind":"done","rev":3`)
	if *again.Base != 2 || !reflect.DeepEqual(again.Patch, Patch{Replace("/n", json.Number("8"))}) {
		t.Fatal(again)
	}
	if made := <-raised; made != (Revision{3, 7}) {
		t.Fatal(made)
	}
	if number, err := Value[int](place); number != 7 || err != nil {
		t.Fatal(number, err)
	}
	if _, err := Value[int](room.board.At("/m")); !errors.Is(err, ErrNotShown) {
		t.Fatal(err)
	}
}

func TestASlowReaderIsGivenTheNewest(t *testing.T) {
	room := begun(t, Options{}, "/n", `[[0]]`)
	changes := room.board.Changes(context.Background())
	for rev := 2; rev < 9; rev++ {
		patch := `[{"op":"replace","path":"/0","value":[1]}]`
		room.hear(fmt.Sprintf(`{"kind":"patch","rev":%d,"patch":%s}`, rev, patch))
	}
	for room.board.Close(); ; {
		change, isThere := <-changes
		if !isThere {
			break
		}
		if change.Rev < 7 { // the last text may not have been heard
			t.Error(change)
		}
	}
}

func TestWhoOnlyWatchesEditsNothing(t *testing.T) {
	options := Options{ReadOnly: true, Begin: map[string]any{"cards": []string{}}}
	room := connected(t, options, "/cards")
	isReadOnly := func(_ any, err error) {
		t.Helper()
		var refused *Refused
		if !errors.As(err, &refused) || refused.Fault != "read-only" {
			t.Fatalf("it fails by %v", err)
		}
	}
	push := Patch{Add("/cards/-", "c")}
	never := func(Change) (Patch, error) { t.Fatal("it is called"); return nil, nil }
	isReadOnly(room.board.Edit(soon(t), push))
	isReadOnly(room.board.Change(soon(t), never))
	waits := func(answer *Answer, err error) (Revision, error) {
		if err != nil {
			return Revision{}, err
		}
		return answer.Wait(soon(t))
	}
	isReadOnly(waits(room.board.End()))
	room.enter(7, 1)
	if word := room.reply(`"kind":"watching"`).word(); word != "watch" {
		t.Fatalf("it says %s", word)
	}
	room.hear(`{"kind":"snapshot","rev":1,"view":[[["a","b"]]]}`)
	if _, err := room.board.Ready(soon(t)); err != nil {
		t.Fatal(err)
	}
	isReadOnly(waits(room.board.At("/cards").Push("c")))
	isReadOnly(room.board.Edit(soon(t), push, Optimistic, On(Revision{1, 7})))
	isReadOnly(room.board.Undo(soon(t)))
	isReadOnly(room.board.Redo(soon(t)))
	room.shows(`[[["a","b"]]]`)
	asked := room.board.Ask(View("/cards"))
	if word := room.reply(`"kind":"watching"`).word(); word != "watch" {
		t.Fatalf("it says %s", word)
	}
	room.hear(`{"kind":"snapshot","rev":2,"view":[[["b"]]]}`)
	if _, err := asked.Wait(soon(t)); err != nil {
		t.Fatal(err)
	}
	room.shows(`[[["b"]]]`)
}

func TestARoomIsEndedAtTheRevisionThatIsShown(t *testing.T) {
	if _, err := connected(t, Options{}, "/cards").board.End(); err != ErrNotShown {
		t.Fatalf("it fails by %v", err)
	}
	room := begun(t, Options{}, "/cards", `[[["a"]]]`)
	answer, err := room.board.End()
	if err != nil {
		t.Fatal(err)
	}
	request := room.reply(`"kind":"refused","fault":"stale","at":null,"rev":2`)
	told, _ := json.Marshal(request.Patch)
	if string(told) != `[{"op":"replace","path":"","value":null}]` || *request.Base != 1 {
		t.Fatalf("it asks for %s at %d", told, *request.Base)
	}
	if _, err := answer.Wait(soon(t)); !isStale(err) {
		t.Fatalf("it fails by %v", err)
	}
	room.hear(`{"kind":"patch","rev":2,"patch":[{"op":"remove","path":"/0/0/0"}]}`)
	for seen, _ := room.board.Shown(); seen.Rev < 2; seen, _ = room.board.Shown() {
		time.Sleep(time.Millisecond)
	}
	if answer, err = room.board.End(); err != nil {
		t.Fatal(err)
	}
	room.reply(`"kind":"done","rev":3`)
	if made, err := answer.Wait(soon(t)); err != nil || made != (Revision{3, 7}) {
		t.Fatalf("it ends at %v, with %v", made, err)
	}
}
