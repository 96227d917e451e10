package relay

import (
	"encoding/json"
	"testing"
)

func TestAWillOfABoardThatIsClosedFails(t *testing.T) {
	room := begun(t, Options{}, "/cards", `[[["a"]]]`)
	willing, err := room.board.SendWill(Patch{})
	if err != nil {
		t.Fatal(err)
	}
	request := room.request()
	if told, _ := json.Marshal(request.Patch); request.Do != "will" || string(told) != "[]" {
		t.Fatalf("it asks for %s %s", request.Do, told)
	}
	room.board.Close()
	if err := willing.Wait(soon(t)); err != ErrClosed {
		t.Fatalf("it fails by %v", err)
	}
	if err := room.board.Will(soon(t), Patch{}); err != ErrClosed {
		t.Fatalf("it fails by %v", err)
	}
}

func TestAWillIsLeftAgainBehindWhatAsksForTheSlots(t *testing.T) {
	room := begun(t, Options{}, "/cards", `[[["a"]]]`)
	willing, err := room.board.SendWill(Patch{Remove("/cards/0")})
	if err != nil {
		t.Fatal(err)
	}
	room.reply(`"kind":"willing"`)
	if err := willing.Wait(soon(t)); err != nil {
		t.Fatal(err)
	}
	close(room.link.texts)
	room.enter(7, 1)
	for _, word := range []string{"resume", "will"} {
		if request := room.request(); request.Do != word {
			t.Fatalf("it says %s, and not %s", request.Do, word)
		}
	}
}
